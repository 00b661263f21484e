//! The crate's answers, one command a line: `COMMAND SET FIELD..` gives `ok FIELD..`, `error TEXT` or `panic`.
//! Bytes are hex digits, `-` is none; matrices are hex digits of little-endian words.
//!
//!   keygen SET SEED            public key, secret key, the seed afterwards
//!   encaps SET PK MSG SALT     ciphertext, shared secret
//!   decaps SET SK CT           shared secret, message
//!   decaps_ss SET SK CT        shared secret
//!   pack SET WORDS             unpack SET BYTES
//!   encode SET MSG             decode SET WORDS
//!   sample SET WORDS
//!   row SET SEEDA I            as the crate holds it: where q is 2^15, bit 15 is kept
//!   mul_as SET SEEDA S E       mul_sa SET SEEDA S E       into an output that holds other words
//!   mul_sb SET S B E           mul_bs SET B S
//!   add SET RHS OUT            sub SET LHS OUT
use driver::*;
use std::io::{BufRead, Write};

const DIRTY: u16 = 0xa5a5;

fn run<K: Kem>(command: &str, fields: &[&str]) -> Result<String, String> {
    let kem = K::default();
    let field = |i: usize| fields.get(i).copied().ok_or(format!("{command}: field {} is missing", i + 1));
    let bytes = |i: usize| field(i).and_then(unhex);
    let words = |i: usize| field(i).and_then(unhex_words);
    Ok(match command {
        "keygen" => {
            let mut seed = bytes(0)?;
            let (pk, sk) = kem.generate_keypair_from_seed(&mut seed);
            format!("{} {} {}", hex(pk.as_ref()), hex(sk.as_ref()), hex(&seed))
        }
        "encaps" => {
            let (pk, msg, salt) = (bytes(0)?, bytes(1)?, bytes(2)?);
            let pk = EncryptionKeyRef::<K>::from_slice(&pk).map_err(|e| format!("{e:?}"))?;
            let (ct, ss) = kem.encapsulate(pk, &msg, &salt);
            format!("{} {}", hex(ct.as_ref()), hex(ss.as_ref()))
        }
        "decaps" | "decaps_ss" => {
            let (sk, ct) = (bytes(0)?, bytes(1)?);
            let sk = DecryptionKeyRef::<K>::from_slice(&sk).map_err(|e| format!("{e:?}"))?;
            let ct = CiphertextRef::<K>::from_slice(&ct).map_err(|e| format!("{e:?}"))?;
            if command == "decaps" {
                let (ss, msg) = kem.decapsulate(sk, ct);
                format!("{} {}", hex(ss.as_ref()), hex(&msg))
            } else {
                hex(kem.decapsulate_shared_secret(sk, ct).as_ref())
            }
        }
        "pack" => {
            let from = words(0)?;
            let mut to = vec![0; from.len() * K::LOG_Q / 8];
            kem.pack(&from, &mut to);
            hex(&to)
        }
        "unpack" => {
            let from = bytes(0)?;
            let mut to = vec![0; from.len() * 8 / K::LOG_Q];
            kem.unpack(&from, &mut to);
            hex_words(&to)
        }
        "encode" => {
            let mut to = vec![0; 64];
            kem.encode_message(&bytes(0)?, &mut to);
            hex_words(&to)
        }
        "decode" => {
            let mut to = vec![0; K::BYTES_MU];
            kem.decode_message(&words(0)?, &mut to);
            hex(&to)
        }
        "sample" => {
            let mut at = words(0)?;
            kem.sample(&mut at);
            hex_words(&at)
        }
        "row" => {
            let wanted: usize = field(1)?.parse().map_err(|e| format!("row number: {e}"))?;
            let mut found = Vec::new();
            kem.expand_a_rows(&bytes(0)?, K::N, &mut |first, rows| {
                for (k, row) in rows.chunks_exact(K::N).enumerate() {
                    if first + k == wanted {
                        found = row.to_vec();
                    }
                }
            });
            hex_words(&found)
        }
        "mul_as" | "mul_sa" => {
            let (seed, s, e) = (bytes(0)?, words(1)?, words(2)?);
            let mut to = vec![DIRTY; K::N_X_N_BAR];
            if command == "mul_as" {
                kem.mul_add_as_plus_e_from_seed(&seed, &s, &e, &mut to);
            } else {
                kem.mul_add_sa_plus_e_from_seed(&seed, &s, &e, &mut to);
            }
            hex_words(&to)
        }
        "mul_sb" => {
            let mut to = vec![DIRTY; 64];
            kem.mul_add_sb_plus_e(&words(0)?, &words(1)?, &words(2)?, &mut to);
            hex_words(&to)
        }
        "mul_bs" => {
            let mut to = vec![DIRTY; 64];
            kem.mul_bs(&words(0)?, &words(1)?, &mut to);
            hex_words(&to)
        }
        "add" | "sub" => {
            let (other, mut at) = (words(0)?, words(1)?);
            if command == "add" {
                kem.add(&other, &mut at)
            } else {
                kem.sub(&other, &mut at)
            }
            hex_words(&at)
        }
        _ => return Err(format!("no command {command}")),
    })
}

fn answer(line: &str) -> Result<String, String> {
    let fields: Vec<&str> = line.split_whitespace().collect();
    let [command, set, rest @ ..] = fields.as_slice() else {
        return Err("expected COMMAND SET FIELD..".into());
    };
    let set: u32 = set.parse().map_err(|e| format!("set number: {e}"))?;
    with_set!(set, K => run::<K>(command, rest), else Err(format!("no set {set}")))
}

fn main() {
    std::panic::set_hook(Box::new(|_| {}));
    let mut out = std::io::stdout().lock();
    for line in std::io::stdin().lock().lines() {
        let line = line.expect("standard input is text");
        let said = match std::panic::catch_unwind(|| answer(&line)) {
            Ok(Ok(fields)) => writeln!(out, "ok {fields}"),
            Ok(Err(why)) => writeln!(out, "error {why}"),
            Err(_) => writeln!(out, "panic"),
        };
        said.and_then(|_| out.flush()).expect("standard output takes a line");
    }
}
