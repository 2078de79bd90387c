//! Items handed out to threads, never too far ahead of what is printed.

use super::items::{Item, Items};
use std::sync::{Condvar, Mutex, MutexGuard, PoisonError};

struct Given {
    items: Items,
    taken: usize,
}

#[derive(Default)]
struct Printed {
    count: usize,
    closed: bool,
}

/// The two locks are apart, so that what is done is printed while a thread waits for more to come.
pub struct Window {
    given: Mutex<Given>,
    printed: Mutex<Printed>,
    moved: Condvar,
    width: usize,
}

fn locked<T>(mutex: &Mutex<T>) -> MutexGuard<'_, T> {
    mutex.lock().unwrap_or_else(PoisonError::into_inner)
}

impl Window {
    pub fn new(items: Items, width: usize) -> Window {
        let given = Mutex::new(Given { items, taken: 0 });
        Window { given, printed: Mutex::default(), moved: Condvar::new(), width }
    }

    /// The next item with its place, once it is near enough to what is printed.
    pub fn take(&self) -> Option<(usize, Item)> {
        let mut given = locked(&self.given);
        let far = |printed: &mut Printed| !printed.closed && given.taken >= printed.count + self.width;
        let printed = self.moved.wait_while(locked(&self.printed), far).unwrap_or_else(PoisonError::into_inner);
        if printed.closed {
            return None;
        }
        drop(printed);
        let item = given.items.next()?;
        given.taken += 1;
        Some((given.taken - 1, item))
    }

    /// So many lines are printed.
    pub fn printed(&self, count: usize) {
        locked(&self.printed).count = count;
        self.moved.notify_all();
    }

    /// Nothing more is handed out.
    pub fn close(&self) {
        locked(&self.printed).closed = true;
        self.moved.notify_all();
    }
}

#[cfg(test)]
mod tests {
    use super::*;
    use std::sync::mpsc::channel;
    use std::sync::Arc;
    use std::time::Duration;

    #[test]
    fn nothing_is_handed_out_too_far_ahead() {
        let items = Items::of(&["a", "b", "c", "d"].map(Into::into));
        let window = Arc::new(Window::new(items, 2));
        let (taken, places) = channel();
        let other = window.clone();
        std::thread::spawn(move || loop {
            let place = other.take().map(|(place, _)| place);
            if taken.send(place).is_err() || place.is_none() {
                return;
            }
        });
        // what has to come is waited for; what must not come has a while to come
        let next = || places.recv().expect("the thread goes on");
        let nothing = || {
            std::thread::sleep(Duration::from_millis(200));
            places.try_recv().is_err()
        };
        assert_eq!([next(), next()], [Some(0), Some(1)]);
        assert!(nothing(), "two are not printed yet");
        window.printed(1);
        assert_eq!(next(), Some(2));
        assert!(nothing(), "again two are not printed yet");
        window.close();
        assert_eq!(next(), None, "a thread that waits is told");
    }
}
