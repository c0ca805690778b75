// Made by tools/rust of crates/tracking_loops/src/news.rt: change that.
//! What a dump changes of the lock.

/// What a dump reports of the lock.
#[derive(Debug, Clone, Copy, PartialEq, Eq)]
pub enum News {
    /// The lock is as it was.
    Nothing,
    /// A window is good, and the channel wasn't locked.
    Lock,
    /// Ten windows in a row are bad, and the channel was locked.
    Unlock,
    /// Fifty windows in a row are bad: the signal is lost.
    Lost,
}
