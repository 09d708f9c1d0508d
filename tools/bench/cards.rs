//! Cards one after another, each its length in two bytes, the low one first, and its bytes.

pub fn of(bytes: &[u8]) -> impl Iterator<Item = &[u8]> {
    let mut rest = bytes;
    std::iter::from_fn(move || {
        let [low, high, more @ ..] = rest else {
            return None;
        };
        let len = usize::from(u16::from_le_bytes([*low, *high])).min(more.len());
        let (card, after) = more.split_at(len);
        rest = after;
        Some(card)
    })
}
