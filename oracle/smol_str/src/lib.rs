//! A name as text, in the place of the crate `smol_str`: only what the lowering asks of it. Two names are equal, and
//! hash alike, exactly if their texts are equal.
//!
//! As there, a text of up to 23 bytes stands in the name itself, so that making and copying it takes nothing from the
//! heap, and a longer one is shared. So the lowering is no slower here than it is with that crate.

use std::borrow::Borrow;
use std::fmt;
use std::hash::{Hash, Hasher};
use std::num::NonZeroU8;
use std::ops::Deref;
use std::sync::Arc;

/// The most bytes that stand in a name itself.
const INLINE: usize = 23;

#[derive(Clone)]
pub struct SmolStr(Text);

/// 24 bytes: no size is 0, which marks a shared text.
#[derive(Clone)]
enum Text {
    /// The size is one more than the length; the first bytes, as many as the length says, are a text.
    Inline {
        size: NonZeroU8,
        bytes: [u8; INLINE],
    },
    Shared(Arc<str>),
}

impl SmolStr {
    pub fn new(text: impl AsRef<str>) -> SmolStr {
        let text = text.as_ref();
        SmolStr(inline(text).unwrap_or_else(|| Text::Shared(Arc::from(text))))
    }

    pub fn as_str(&self) -> &str {
        match &self.0 {
            Text::Inline { size, bytes } => {
                let len = usize::from(size.get() - 1);
                // SAFETY: `inline` alone makes this case. It copies a text of `len` bytes to the front, and nothing
                // changes them.
                unsafe { std::str::from_utf8_unchecked(bytes.get_unchecked(..len)) }
            }
            Text::Shared(text) => text,
        }
    }
}

/// A text that is short enough to stand in the name itself.
fn inline(text: &str) -> Option<Text> {
    let mut bytes = [0; INLINE];
    bytes.get_mut(..text.len())?.copy_from_slice(text.as_bytes());
    Some(Text::Inline { size: NonZeroU8::MIN.saturating_add(text.len() as u8), bytes })
}

impl Default for SmolStr {
    fn default() -> SmolStr {
        SmolStr::new("")
    }
}

impl From<String> for SmolStr {
    fn from(text: String) -> SmolStr {
        SmolStr::new(text)
    }
}

impl Deref for SmolStr {
    type Target = str;

    fn deref(&self) -> &str {
        self.as_str()
    }
}

impl Borrow<str> for SmolStr {
    fn borrow(&self) -> &str {
        self.as_str()
    }
}

impl fmt::Display for SmolStr {
    fn fmt(&self, f: &mut fmt::Formatter) -> fmt::Result {
        fmt::Display::fmt(self.as_str(), f)
    }
}

impl fmt::Debug for SmolStr {
    fn fmt(&self, f: &mut fmt::Formatter) -> fmt::Result {
        fmt::Debug::fmt(self.as_str(), f)
    }
}

impl PartialEq for SmolStr {
    fn eq(&self, other: &SmolStr) -> bool {
        self.as_str() == other.as_str()
    }
}

impl Eq for SmolStr {}

impl PartialEq<str> for SmolStr {
    fn eq(&self, text: &str) -> bool {
        self.as_str() == text
    }
}

impl PartialEq<&str> for SmolStr {
    fn eq(&self, text: &&str) -> bool {
        self.as_str() == *text
    }
}

/// The hash of the text, by which a map over names can be asked for a text.
impl Hash for SmolStr {
    fn hash<H: Hasher>(&self, state: &mut H) {
        self.as_str().hash(state)
    }
}

#[cfg(test)]
mod tests {
    use super::*;
    use std::collections::HashMap;

    /// Texts of 0 to 30 bytes, and one whose letters have two bytes each.
    fn texts() -> Vec<String> {
        (0..=30).map(|n| "x".repeat(n)).chain(["é".repeat(11), "é".repeat(12)]).collect()
    }

    #[test]
    fn a_text_comes_back() {
        for text in texts() {
            let name = SmolStr::new(&text);
            assert_eq!(name.as_str(), text);
            assert_eq!(name.clone().as_str(), text);
            assert_eq!(SmolStr::from(text.clone()).as_str(), text);
            assert_eq!(format!("{name} {name:?}"), format!("{text} {text:?}"));
            assert_eq!(matches!(name.0, Text::Inline { .. }), text.len() <= 23);
        }
        assert_eq!(SmolStr::default().as_str(), "");
    }

    #[test]
    fn equal_exactly_if_the_texts_are() {
        for a in texts() {
            for b in texts() {
                assert_eq!(SmolStr::new(&a) == SmolStr::new(&b), a == b);
                assert_eq!(SmolStr::new(&a) == b.as_str(), a == b);
            }
        }
    }

    #[test]
    fn a_map_is_asked_for_a_text() {
        let map: HashMap<SmolStr, usize> = texts().iter().map(SmolStr::new).zip(0..).collect();
        for (n, text) in texts().iter().enumerate() {
            assert_eq!(map.get(text.as_str()), Some(&n));
        }
    }

    #[test]
    fn a_name_has_24_bytes() {
        assert_eq!(std::mem::size_of::<SmolStr>(), 24);
    }
}
