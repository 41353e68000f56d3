//! Stand-in for the crate flume: a sink for one thread. `queue` keeps the messages in order for the comparison; `counter` drops and
//! counts them for the measurement.
use std::{
    cell::{Cell, RefCell},
    rc::Rc,
};
pub struct SendError<T>(pub T);
impl<T> std::fmt::Debug for SendError<T> {
    fn fmt(&self, f: &mut std::fmt::Formatter<'_>) -> std::fmt::Result {
        f.write_str("SendError")
    }
}
#[derive(Clone)]
pub enum Sender<T> {
    Queue(Rc<RefCell<Vec<T>>>),
    Count(Rc<Cell<u64>>),
}
impl<T> Sender<T> {
    pub fn queue() -> (Self, Rc<RefCell<Vec<T>>>) {
        let q = Rc::new(RefCell::new(vec![]));
        (Sender::Queue(q.clone()), q)
    }
    pub fn counter() -> (Self, Rc<Cell<u64>>) {
        let c = Rc::new(Cell::new(0));
        (Sender::Count(c.clone()), c)
    }
    #[inline]
    pub fn send(&self, t: T) -> Result<(), SendError<T>> {
        match self {
            Sender::Queue(q) => q.borrow_mut().push(t),
            Sender::Count(c) => {
                drop(std::hint::black_box(t));
                c.set(c.get() + 1)
            }
        }
        Ok(())
    }
}
