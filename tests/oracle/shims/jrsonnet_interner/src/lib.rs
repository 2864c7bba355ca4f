//! Stands in for the crate `jrsonnet_interner`: equal strings are one, so that addresses are compared and hashed.

use std::cell::RefCell;
use std::collections::HashSet;
use std::fmt;
use std::hash::{Hash, Hasher};
use std::rc::Rc;

#[derive(Clone)]
pub struct IStr(Rc<str>);

thread_local! {
    static POOL: RefCell<HashSet<Rc<str>>> = RefCell::default();
}

impl IStr {
    pub fn as_str(&self) -> &str {
        &self.0
    }
}

impl From<&str> for IStr {
    fn from(text: &str) -> IStr {
        POOL.with_borrow_mut(|pool| {
            if let Some(known) = pool.get(text) {
                return IStr(known.clone());
            }
            let new: Rc<str> = Rc::from(text);
            pool.insert(new.clone());
            IStr(new)
        })
    }
}

impl From<String> for IStr {
    fn from(text: String) -> IStr {
        IStr::from(text.as_str())
    }
}

impl PartialEq for IStr {
    #[inline]
    fn eq(&self, other: &IStr) -> bool {
        Rc::ptr_eq(&self.0, &other.0)
    }
}

impl Eq for IStr {}

impl Hash for IStr {
    #[inline]
    fn hash<H: Hasher>(&self, state: &mut H) {
        state.write_usize(self.0.as_ptr() as usize);
    }
}

impl fmt::Display for IStr {
    fn fmt(&self, f: &mut fmt::Formatter<'_>) -> fmt::Result {
        f.write_str(&self.0)
    }
}

impl fmt::Debug for IStr {
    fn fmt(&self, f: &mut fmt::Formatter<'_>) -> fmt::Result {
        fmt::Debug::fmt(&self.0, f)
    }
}
