//! The bytes of records.

use crate::interface::values::GPIO_NONE;

/// A list's length, cut at 255.
pub fn count<T>(list: &[T]) -> u8 {
    u8::try_from(list.len()).unwrap_or(u8::MAX)
}

/// Fills the places from the front, as far as both go.
pub fn put(places: &mut [u8], bytes: impl IntoIterator<Item = u8>) {
    for (place, byte) in places.iter_mut().zip(bytes) {
        *place = byte;
    }
}

/// 255 would read as no GPIO. As a GPIO it has to be refused, and so it goes as another number
/// that is none.
pub fn gpio(gpio: u8) -> u8 {
    if gpio == GPIO_NONE {
        GPIO_NONE - 1
    } else {
        gpio
    }
}
