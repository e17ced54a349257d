//! Stands in for the crate's large numbers: decimal digits, the last first.

use alloc::string::String;
use alloc::vec::Vec;
use core::ops::{AddAssign, MulAssign};

pub struct BigInt {
    digits: Vec<u8>,
}

impl BigInt {
    pub fn new() -> Self {
        BigInt { digits: Vec::new() }
    }

    /// In decimal, without leading zeros.
    pub fn to_string(&self) -> String {
        let digits = self.digits.iter().rev().skip_while(|digit| **digit == 0);
        let text: String = digits.map(|digit| char::from(b'0' + digit)).collect();
        if text.is_empty() {
            String::from("0")
        } else {
            text
        }
    }

    /// Multiplies by `by` and adds `plus`.
    fn grow(&mut self, by: u8, plus: u8) {
        let mut carry = u16::from(plus);
        for digit in &mut self.digits {
            carry += u16::from(*digit) * u16::from(by);
            *digit = (carry % 10) as u8;
            carry /= 10;
        }
        while carry > 0 {
            self.digits.push((carry % 10) as u8);
            carry /= 10;
        }
    }
}

impl MulAssign<u8> for BigInt {
    fn mul_assign(&mut self, base: u8) {
        self.grow(base, 0);
    }
}

impl AddAssign<u8> for BigInt {
    fn add_assign(&mut self, digit: u8) {
        self.grow(1, digit);
    }
}
