//! trust-dns-proto: a whole message.

use trust_dns_proto::op::Message;

/// How many records answer in the message that these octets are.
///
/// # Safety
///
/// There are `length` octets at `octets`.
#[no_mangle]
pub unsafe extern "C" fn trust_dns_reply(octets: *const u8, length: usize) -> usize {
    let octets = unsafe { std::slice::from_raw_parts(octets, length) };
    match Message::from_vec(octets) {
        Ok(message) => message.answers().len(),
        Err(_) => 0,
    }
}

/// One more than how many records answer in the message that these octets are, or 0 for none.
///
/// # Safety
///
/// There are `length` octets at `octets`.
#[no_mangle]
pub unsafe extern "C" fn trust_dns_reads(octets: *const u8, length: usize) -> usize {
    let octets = unsafe { std::slice::from_raw_parts(octets, length) };
    match Message::from_vec(octets) {
        Ok(message) => message.answers().len() + 1,
        Err(_) => 0,
    }
}
