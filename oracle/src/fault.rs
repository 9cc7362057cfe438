//! A hundred and sixty-two small faults that can be planted in the oracle, to show that a comparison finds them.
//! Their numbers are those of `all`: some are not in use.
//! Without the feature `plant` nothing of this is left in the code.
//!
//!  1. the writer alone refuses a buffer of exactly the frame's length
//!  2. a clock ε − 1 ahead is read as behind
//!  3. check 13 lets a frame be one tick older
//!  4. check 15 lets counts be n
//!  5. the order leaves out its last count
//!  6. tables with n counted ahead of their clock pass as sound
//!  7. the step leaves c as it is
//!  8. a frame's counts are taken in one clock too late
//!  9. the byte after the last shelved frame is not cleared
//! 10. replay lets an overlong trace pass
//! 11. a frame's payload is read from one byte too early
//! 12. the words say one tick more for check 13
//! 13. a step of several ticks moves the counts by one offset only
//! 14. a shelved frame due at the last clock passes as sound
//! 15. the words give 17, which no judgement gives, the line of 16
//! 16. frames due before v are handed out behind those due at v
//! 17. where the tables are replaced, a shelved frame due one before v passes as sound
//! 18. a queue of one frame more than its count limit passes as sound
//! 19. the clock of a count that decided is one too late
//! 20. that clock is not reduced modulo B
//! 21. where the station decided r is said to have, and the other way round
//! 22. a give line has the reason against the first line of its hand-out
//! 23. where a count decided the sum is said to have
//! 24. in a poll a shelved frame due at v itself passes as sound
//! 25. a poll counts frames due one tick past its bound
//! 26. a poll takes an unsound queue as it lies
//! 27. the next due clock of a poll is not reduced modulo B
//! 28. a poll's count stops one frame too late
//! 29. a poll's count stops one frame too early
//! 30. the next due clock of a poll is that of the last frame
//! 31. an observer asks 15
//! 32. an observer takes a last clock of B or above modulo B
//! 33. where an observer's last clock is damaged, a shelved frame due one before v passes as sound
//! 34. an observer's last clock is not moved to v
//! 35. an observer's last clock passes as sound after a step of ε + 1
//! 36. an observer is asked for an own number
//! 37. with an observer a shelved frame due at the last clock passes as sound
//! 38. a refused call moves an observer's last clock
//! 39. yard numbers the steps from 0
//! 40. the figures of yard are one too low
//! 41. a step of yard may name its own frame, and does not hear it
//! 42. all nodes of yard start before the first step's clock
//! 43. yard goes on after a step that is refused
//! 44. a step of yard is a tick of another node too
//! 45. the give lines of yard are without the node
//! 46. yard takes 1,001 steps
//! 47. yard lets an overlong trace pass
//! 48. an engine asks 18 before 16
//! 49. an engine takes a 65th message
//! 50. an engine's queue of 65 frames passes as sound
//! 51. an engine's frame with an r of 2^63 passes 11
//! 52. an engine's clock of 2^63 passes 2
//! 53. r stands in an engine's frames with its high byte first
//! 54. an engine hands out in the order heard
//! 55. what is due before v is not counted by 18
//! 56. an engine's queue is judged for order
//! 57. an engine puts what stays into delivery order
//! 58. an engine reads a clock ε or more ahead as behind
//! 59. with an engine a held frame due at the last clock passes as sound
//! 60. where an engine's tables are replaced, a held frame due one before v passes as sound
//! 61. an engine's tables pass as sound after a step of ε + 1
//! 62. an engine's writer refuses a buffer of exactly the frame's length
//! 63. the byte after an engine's last held frame is not cleared
//! 64. an engine's start at 2^63 is taken
//! 65. the count of an engine's fresh tables stands one offset too low
//! 66. an engine's start is asked for a B
//! 67. an observer's start is taken at a clock of more than two bytes, of which it keeps two: 5 of 65,541
//! 68. an observer's start is asked for an own number
//! 69. an observer's start at B is taken
//! 70. with both pairs r is read near v by the old pair, also past V
//! 71. with both pairs r is read near v by the wider pair, also before V
//! 72. the longest step is that of the old pair, also past V
//! 73. the longest step is that of the wider pair, also before V
//! 74. check 12 asks for c at most ε − 1 of the old pair, also past V
//! 75. check 12 asks for c at most ε′ − 1, also before V
//! 76. check 13 counts back from v by the old pair, also past V
//! 77. check 13 counts back from v by the wider pair, also before V
//! 78. check 14 has the old pair's limit, also past V
//! 79. check 14 has the wider pair's limit, also before V
//! 80. the queue's count limit is that of the old pair, also past V
//! 81. the queue's count limit is that of the wider pair, also before V
//! 82. unmarked, a V that reads as v is there, and not B ahead
//! 83. the place of V is read as if there were no mark
//! 84. a frame is due by the pair of the tick's clock
//! 85. a frame is due by its width, which is its sender's side of V
//! 86. a frame that would be due at V by the old pair is due there
//! 87. the order compares as many counts as the tick's clock has
//! 88. past V the order compares as many counts as the frame's width has
//! 89. the order compares ε counts, also past V
//! 90. the order compares ε′ counts, also of frames due before V
//! 91. the order compares ε counts of frames due at V by the old pair
//! 92. a count that a narrow frame lacks comes before 0 in the order
//! 93. tables are read at the width of the tick's clock
//! 94. tables whose r is V are read as narrow
//! 95. narrow tables that become wide keep their counts in their places, and so at wrong offsets
//! 96. a frame of the other width is counted in by places, and so at wrong offsets
//! 97. check 13 is without its second half: a frame due before v is taken
//! 98. past V wide frames alone are read
//! 99. before V narrow frames alone are read
//! 100. a node past V writes narrow frames
//! 101. a node before V writes wide frames
//! 102. shelf and buffers have the sizes of the mark's side
//! 103. shelf and buffers have the old sizes
//! 104. 19 is asked before 1
//! 105. 19 is not asked of ε′
//! 106. 19 is not asked of δ′
//! 107. 19 where a pair is not larger than the old
//! 108. a V of B passes 1
//! 109. a mark above 1 passes 1
//! 110. B is asked about for the old pair alone
//! 111. the wider pair's limits are not asked about
//! 112. an observer with both pairs is asked for an own number
//! 113. the reader judges 12 by the mark's side
//! 114. the writer judges 12 by the mark's side
//! 115. the reader says wide where both pairs have one width
//! 116. the writer writes the width of the mark's side
//! 117. the words have the old pair's limits
//! 118. the words have the wider pair's limits
//! 119. fresh tables past V are narrow
//! 120. the comparison judges 12 by the frames' width
//! 121. frames behind the count of a queue are read too
//! 122. the bytes by which a queue grew are not cleared
//! 123. a queue with a narrow frame in it is emptied past V
//! 124. narrow tables are replaced past V
//! 130. a half cent is rounded down
//! 131. a rate of 60,001 passes 1
//! 132. 21 is asked before 20
//! 133. a 513th bale is charged, over the last one
//! 134. a ticket that passes changes a byte of the ledger
//! 135. a bale is put over the one before it
//! 136. a charge of 0 is taken for a pass
//! 137. a count above 512 reads as 0
//! 138. 22 is asked before 21
//! 139. a press ticket of more than 10 bytes passes 20
//! 140. the count of a press ticket is not asked about
//! 141. 1,001 pounds pass 20
//! 142. 0 pounds pass 20
//! 143. bales and charges are read with the high byte first
//! 144. every part of a cent is rounded up
//! 145. a total takes in every grower whose low byte is the same
//! 146. a total leaves out the 512th bale
//! 147. 3 is asked before 1
//! 148. 21 is not asked
//! 149. 4 is not asked
//! 150. the figures have 255 rows
//! 151. the figures tell of 255 ticks
//! 152. the figures tell of 257 ticks, the one that has just left among them
//! 153. a tick that leaves is not taken off the figures
//! 154. a frame refused by 10 is counted for a node
//! 155. a frame refused by 11 with a node not below n is counted for that node
//! 156. a call of the figures that is refused for a verdict is counted
//! 157. the totals are not counted afresh
//! 158. the totals are counted afresh in every call
//! 159. node n is counted for itself
//! 160. a taken frame is counted as one refused by 11
//! 161. the totals have their high byte first
//! 162. the figures take an n of 17
//! 163. figures that are too long pass 3
//! 164. the figures ask 3 before 1
//! 165. the figures ask 5 before 3
//! 166. a tick that hears nothing is not counted
//! 167. the figures count 17, which no judgement gives
//! 168. V and the mark are not asked about where the pairs are equal
//! 169. check 15 finds the counts of a frame of the other width by places, and so for wrong clocks
//! 170. frames of one node and r are no repeats where they have different widths
//! 171. the words have for 12 the limits of the frame's width
//! 172. the reader lays the counts of a narrow frame at the places of a wide one's offsets
//! 173. the writer takes the counts of a narrow frame from the places of a wide one's offsets
//! 174. the reader reads frames of the mark's width alone
//! 175. a poll has due clocks by the pair of its clock
//! 176. an observer does not ask 19
//! 177. a start asks 2 before 19

use std::ops::RangeInclusive;

/// The last of those that are numbered one after the other; those of charges, of the figures and of the eight calls with both pairs stand
/// behind them.
const COUNT: u8 = 124;
/// Those that are in the program `yard` alone.
pub const OF_YARD: RangeInclusive<u8> = 39..=47;
/// Those that are in engines (02, 2.9) alone.
pub const OF_ENGINES: RangeInclusive<u8> = 48..=66;
/// Those that are in calls with both pairs (02, 2.10) alone: by the sentences of 2.10, and by its eight calls.
pub const OF_WIDER: [RangeInclusive<u8>; 2] = [70..=124, 168..=177];
/// Those that are in charges and totals (02, 2.11) alone.
pub const OF_CHARGES: RangeInclusive<u8> = 130..=149;
/// Those that are in the figures (02, 2.13) alone.
pub const OF_FIGURES: RangeInclusive<u8> = 150..=167;

/// All faults.
pub fn all() -> impl Iterator<Item = u8> {
    let [_, of_calls] = OF_WIDER;
    (1..=COUNT).chain(OF_CHARGES).chain(OF_FIGURES).chain(of_calls)
}

#[cfg(feature = "plant")]
mod switch {
    use std::cell::Cell;

    thread_local!(static PLANTED: Cell<u8> = const { Cell::new(0) });

    /// Plants the fault with this number in this thread; 0 for none.
    pub fn plant(fault: u8) {
        PLANTED.set(fault);
    }

    /// Is this fault planted?
    pub fn planted(fault: u8) -> bool {
        PLANTED.get() == fault
    }
}

#[cfg(not(feature = "plant"))]
mod switch {
    /// Without the feature there is none to plant.
    pub fn plant(fault: u8) {
        assert!(fault == 0, "built without the feature plant");
    }

    /// Always no without the feature.
    pub const fn planted(_fault: u8) -> bool {
        false
    }
}

pub use switch::{plant, planted};

/// 1 where the fault is planted, otherwise 0: the wrong part of a limit.
pub(crate) fn skew(fault: u8) -> i64 {
    planted(fault).into()
}
