//! Annex A: the CRC, one bit at a time.

/// x^16 + x^12 + x^5 + 1, without its highest power.
const POLYNOMIAL: u16 = 0x1021;

/// What the register holds after data and their sent CRC together (document 01, "CRC").
pub const RESIDUE: u16 = 0x1D0F;

/// The register of Annex A after `data`: all ones first, most significant bit of each byte first.
pub fn register(data: &[u8]) -> u16 {
    let mut register = 0xFFFF;
    for byte in data {
        for bit in (0..8).rev() {
            register = shift(register, byte >> bit & 1 == 1);
        }
    }
    register
}

/// One clock of the shift register, with one bit of data at its input.
fn shift(register: u16, input: bool) -> u16 {
    let top = register >> 15 == 1;
    let shifted = register << 1;
    if top != input {
        shifted ^ POLYNOMIAL
    } else {
        shifted
    }
}

/// The CRC as it is sent: the register inverted.
pub fn sent(data: &[u8]) -> u16 {
    !register(data)
}
