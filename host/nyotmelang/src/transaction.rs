//! A transaction that a host holds between uninstalling and installing it.
use crate::table::TransactionId;
use std::fmt;

/// A transaction in form holds at most this many touched pages.
pub const TOUCHED_LIMIT: usize = 64;

/// A transaction's id and the pages it has touched. What [`Store::uninstall`](crate::Store::uninstall) hands out is in form;
/// one that is made by hand need not be, and is then refused by [`Store::install`](crate::Store::install).
///
/// ```
/// use nyotmelang::{Transaction, TransactionId};
/// let t = Transaction::new(TransactionId(7), &[3, 5]);
/// assert_eq!((t.id(), t.touched()), (TransactionId(7), &[3, 5][..]));
/// ```
#[derive(Clone, PartialEq, Eq)]
pub struct Transaction {
    id: TransactionId,
    touched: Vec<u32>,
}

impl fmt::Debug for Transaction {
    fn fmt(&self, f: &mut fmt::Formatter<'_>) -> fmt::Result {
        write!(f, "Transaction({}, touched: {:?})", self.id.0, self.touched)
    }
}

impl Transaction {
    /// With these touched pages, in this order.
    pub fn new(id: TransactionId, touched: &[u32]) -> Transaction {
        Transaction { id, touched: touched.to_vec() }
    }

    pub fn id(&self) -> TransactionId {
        self.id
    }

    pub fn touched(&self) -> &[u32] {
        &self.touched
    }
}
