//! `ctutils` by Debian's subtle: equality and selection without a branch. `a.ct_select(&b, c)` is a where c is false.
pub use subtle::Choice;

pub trait CtEq {
    fn ct_eq(&self, other: &Self) -> Choice;
}

impl<T: subtle::ConstantTimeEq> CtEq for [T] {
    fn ct_eq(&self, other: &Self) -> Choice {
        subtle::ConstantTimeEq::ct_eq(self, other)
    }
}

impl<T: subtle::ConstantTimeEq> CtEq for Vec<T> {
    fn ct_eq(&self, other: &Self) -> Choice {
        self.as_slice().ct_eq(other.as_slice())
    }
}

pub trait CtSelect: Sized {
    fn ct_select(&self, other: &Self, choice: Choice) -> Self;
}

impl<T: subtle::ConditionallySelectable> CtSelect for T {
    fn ct_select(&self, other: &Self, choice: Choice) -> Self {
        T::conditional_select(self, other, choice)
    }
}
