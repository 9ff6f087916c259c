//! Natural numbers of any size up to 2,048 bits, added and multiplied exactly by hand.

const LIMBS: usize = 64;

/// Digits to the base 2^32, the least first, none of them a zero at the end. Above 2,048 bits only that is known.
#[derive(Clone, Debug, PartialEq, Eq)]
pub enum Natural {
    Exact(Vec<u32>),
    Beyond,
}

impl Natural {
    pub fn new(number: u64) -> Natural {
        trimmed(vec![number as u32, (number >> 32) as u32])
    }

    pub fn plus(&self, other: &Natural) -> Natural {
        let (Natural::Exact(x), Natural::Exact(y)) = (self, other) else { return Natural::Beyond };
        let mut digits = vec![0; x.len().max(y.len()) + 1];
        let mut carry = 0;
        for (i, digit) in digits.iter_mut().enumerate() {
            carry += u64::from(*x.get(i).unwrap_or(&0)) + u64::from(*y.get(i).unwrap_or(&0));
            *digit = carry as u32;
            carry >>= 32;
        }
        trimmed(digits)
    }

    pub fn times(&self, other: &Natural) -> Natural {
        if self.is_zero() || other.is_zero() {
            return Natural::new(0);
        }
        let (Natural::Exact(x), Natural::Exact(y)) = (self, other) else { return Natural::Beyond };
        let mut digits = vec![0; x.len() + y.len()];
        for (i, &a) in x.iter().enumerate() {
            let mut carry = 0;
            for (k, &b) in y.iter().chain(&[0]).enumerate() {
                carry += u64::from(a) * u64::from(b) + u64::from(digits[i + k]);
                digits[i + k] = carry as u32;
                carry >>= 32;
            }
        }
        trimmed(digits)
    }

    fn is_zero(&self) -> bool {
        *self == Natural::new(0)
    }

    /// The number, if it fits 64 bits.
    pub fn small(&self) -> Option<u64> {
        match self {
            Natural::Exact(digits) if digits.len() <= 2 => {
                Some(digits.iter().rev().fold(0, |number, &digit| number << 32 | u64::from(digit)))
            }
            _ => None,
        }
    }
}

fn trimmed(mut digits: Vec<u32>) -> Natural {
    while digits.last() == Some(&0) {
        digits.pop();
    }
    if digits.len() > LIMBS {
        return Natural::Beyond;
    }
    Natural::Exact(digits)
}
