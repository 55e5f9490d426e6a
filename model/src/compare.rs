//! The plain rules and the program in place, call against call.

use crate::calls::{Answer, Call, Plain, What};
use crate::fast;

/// Stands in every byte of a lent slice before the call; no sheet line has it.
const UNTOUCHED: u8 = b'.';
/// Bytes after the written ones that are looked at.
const LOOKED_AT: usize = 1 << 16;

/// The number of the first line whose two answers differ, if there is one.
pub fn compare(calls: &[Call]) -> Option<usize> {
    let most = calls.iter().map(|call| call.len).max().unwrap_or(0);
    let mut buffer = vec![UNTOUCHED; most];
    let mut plain = Plain::default();
    let mut quick = fast::Calls::new();
    for (at, call) in calls.iter().enumerate() {
        if call.what.is_call() && plain.channel.is_none() {
            return Some(at + 1);
        }
        let lent = &mut buffer[..call.len];
        let answer = plain.answer(call);
        let (number, length) = match quick.call(call.what, lent) {
            Ok(length) => (0, length),
            Err(number) => (number, 0),
        };
        let same = match answer {
            None => call.what == What::Table && number == 0,
            Some(answer @ Answer::Table { .. }) => {
                answer == Answer::Table { number, servers: quick.servers() } && length == 0
            }
            Some(answer) => {
                let written = lent[..length].to_vec();
                let kept = call.len - length;
                let (frame, roles) = (quick.frame(), quick.roles());
                answer == Answer::Call { number, written, kept, frame, roles }
            }
        };
        let looked_at = call.len.min(length + LOOKED_AT);
        if !same || lent[length..looked_at].iter().any(|&byte| byte != UNTOUCHED) {
            return Some(at + 1);
        }
        lent[..length].fill(UNTOUCHED);
    }
    None
}
