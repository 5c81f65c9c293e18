//! Catches panics of consumers and checks, and keeps them off standard error: thousands of runs may have one.
use super::tree::TooManyRequests;
use std::any::Any;
use std::cell::{Cell, RefCell};
use std::panic::{self, AssertUnwindSafe};
use std::sync::Once;

thread_local! {
    static IS_CAUGHT: Cell<bool> = const { Cell::new(false) };
    static PLACE: RefCell<String> = const { RefCell::new(String::new()) };
}

/// A panic: what it said, and the line that panicked.
pub(crate) struct Panic {
    pub message: String,
    pub place: String,
}

/// Installs, once, a hook that prints nothing while this module catches a thread's panics. Else it calls the last hook.
fn install() {
    static HOOK: Once = Once::new();
    HOOK.call_once(|| {
        let before = panic::take_hook();
        panic::set_hook(Box::new(move |info| {
            if !IS_CAUGHT.with(Cell::get) {
                return before(info);
            }
            let place = info.location().map(ToString::to_string).unwrap_or_default();
            PLACE.with(|it| *it.borrow_mut() = place);
        }));
    });
}

fn message(payload: &(dyn Any + Send)) -> String {
    if payload.is::<TooManyRequests>() {
        "the consumer made too many requests".into()
    } else if let Some(text) = payload.downcast_ref::<&str>() {
        (*text).into()
    } else {
        payload.downcast_ref::<String>().cloned().unwrap_or_else(|| "a panic without a text".into())
    }
}

/// Runs a function, and returns its panic as an error.
pub(crate) fn catch<T>(run: impl FnOnce() -> T) -> Result<T, Panic> {
    install();
    let was = IS_CAUGHT.with(|it| it.replace(true));
    let result = panic::catch_unwind(AssertUnwindSafe(run));
    IS_CAUGHT.with(|it| it.set(was));
    result.map_err(|payload| Panic { message: message(&*payload), place: PLACE.with(|it| it.take()) })
}
