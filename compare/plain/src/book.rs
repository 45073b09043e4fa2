//! The class book: who may follow whom.

use crate::slip::Class;

/// At most so many trains are promised one block.
pub const MOST: usize = 3;

/// May a train of this class follow so many promised trains, of which so many carry passengers?
///
/// The documents say only what the book is asked and that no passenger train may follow. The rest was learned by
/// asking the proved program: nothing follows a passenger train, and no train follows three others.
pub fn may_follow(class: Class, promised: usize, passengers: usize) -> bool {
    class != Class::Passenger && passengers == 0 && promised < MOST
}
