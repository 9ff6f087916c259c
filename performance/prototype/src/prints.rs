//! Prints: a number for each state that sums over its class and uses. States of one class with the same uses have one
//! print, so states whose prints differ are not equivalent.

use crate::format::NAMES;
use crate::packed::{arity_of, byte_of, meta_of, out_of, places, Transition};

/// The last 14 bits of a print count the uses; the bit above is the class.
pub const CLASS: u64 = 16_384;

const META_FACTOR: u64 = 9_223_372_037;
const OUT_FACTOR: u64 = 50_159_747_054_999_923;
/// The factor of the first argument, and by how much it falls from one argument to the next.
const ARGUMENT_FACTOR: u64 = 61_169_462_280_107_569;
const FALL: u64 = 1_137_794_023_457_893;

fn salt(meta: u64, out: usize) -> u64 {
    meta * META_FACTOR ^ out as u64 * OUT_FACTOR
}

fn mixed(y: u64) -> u64 {
    let product = (y & 0xffff_ffff) * (y >> 32);
    product - product % (2 * CLASS) + 1
}

/// What a use adds to a print: the other arguments packed, with 0 at the gap, and the output. No use adds 0.
pub fn use_value(meta: u64, others: u64, out: usize) -> u64 {
    if out == 0 {
        return 0;
    }
    let mut hash = salt(meta, out);
    let mut factor = ARGUMENT_FACTOR;
    for k in 0..arity_of(meta) {
        hash ^= byte_of(others, k) as u64 * factor;
        factor -= FALL;
    }
    mixed(hash)
}

fn add_uses(transition: &Transition, prints: &mut [u64; NAMES]) {
    let mut hash = salt(meta_of(transition), out_of(transition));
    let mut factor = ARGUMENT_FACTOR;
    for &argument in places(transition) {
        hash ^= u64::from(argument) * factor;
        factor -= FALL;
    }
    factor = ARGUMENT_FACTOR;
    for &argument in places(transition) {
        let print = &mut prints[usize::from(argument)];
        *print = print.wrapping_add(mixed(hash ^ u64::from(argument) * factor));
        factor -= FALL;
    }
}

pub fn all_prints(classes: &[u8], run: &[Transition], prints: &mut [u64; NAMES]) {
    for (print, &class) in prints[1..].iter_mut().zip(classes) {
        *print = u64::from(class) * CLASS;
    }
    for transition in run {
        add_uses(transition, prints);
    }
}

/// Whether each state is of class 1 or an argument of a transition.
pub fn all_used(prints: &[u64]) -> bool {
    prints.iter().fold(true, |all, print| all & (print % (2 * CLASS) != 0))
}

/// Whether no two states have one print. Only if a bucket by the top bits is taken, the prints below are compared.
pub fn all_differ(prints: &[u64]) -> bool {
    let mut taken = [false; 1024];
    for (q, &print) in prints.iter().enumerate() {
        let bucket = &mut taken[(print >> 54) as usize];
        if *bucket && !prints[..q].iter().fold(true, |alone, &other| alone & (other != print)) {
            return false;
        }
        *bucket = true;
    }
    true
}
