//! Stands in for the registry's `memchr`, which is not at hand: the same answers by a plain search.

pub fn memchr(a: u8, input: &[u8]) -> Option<usize> {
    input.iter().position(|&byte| byte == a)
}

pub fn memchr2(a: u8, b: u8, input: &[u8]) -> Option<usize> {
    input.iter().position(|&byte| byte == a || byte == b)
}

pub fn memchr3(a: u8, b: u8, c: u8, input: &[u8]) -> Option<usize> {
    input.iter().position(|&byte| byte == a || byte == b || byte == c)
}
