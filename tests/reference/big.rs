//! Whole numbers of any size: just what the exact fractions need.

use std::cmp::Ordering;

#[derive(Clone, Debug, Default)]
pub struct Big(Vec<u64>);

impl Big {
    pub fn from(n: u64) -> Big {
        Big(if n == 0 { vec![] } else { vec![n] })
    }

    pub fn add(&mut self, other: &Big) {
        if self.0.len() < other.0.len() {
            self.0.resize(other.0.len(), 0);
        }
        let mut carry = 0u128;
        for i in 0..self.0.len() {
            if i >= other.0.len() && carry == 0 {
                break;
            }
            let sum = self.0[i] as u128 + other.0.get(i).copied().unwrap_or(0) as u128 + carry;
            self.0[i] = sum as u64;
            carry = sum >> 64;
        }
        if carry > 0 {
            self.0.push(carry as u64);
        }
    }

    pub fn times(&self, n: u64) -> Big {
        let mut out = Vec::with_capacity(self.0.len() + 1);
        let mut carry = 0u128;
        for limb in &self.0 {
            let product = *limb as u128 * n as u128 + carry;
            out.push(product as u64);
            carry = product >> 64;
        }
        out.push(carry as u64);
        while out.last() == Some(&0) {
            out.pop();
        }
        Big(out)
    }

    pub fn at_most(&self, other: &Big) -> bool {
        let by_size = self.0.len().cmp(&other.0.len());
        by_size.then_with(|| self.0.iter().rev().cmp(other.0.iter().rev())) != Ordering::Greater
    }

    /// The two highest limbs, as a number, and the power of two that they stand at.
    fn top(&self) -> (f64, i32) {
        let limb = |back: usize| self.0.len().checked_sub(back).map_or(0.0, |i| self.0[i] as f64);
        (limb(1) * 2f64.powi(64) + limb(2), 64 * (self.0.len() as i32 - 2))
    }

    /// The quotient, nearly.
    pub fn over(&self, other: &Big) -> f64 {
        let ((a, at), (b, bt)) = (self.top(), other.top());
        a / b * 2f64.powi(at - bt)
    }

    pub fn plus(&self, other: &Big) -> Big {
        let mut sum = self.clone();
        sum.add(other);
        sum
    }
}
