/// The window of all numbers noted so far for one destination, held or carried.
#[derive(Clone, Copy)]
pub enum Window {
    Empty,
    /// All numbers lie from `low` to `low + span`, and no shorter stretch has them all.
    Within {
        low: u32,
        span: u32,
    },
    TooWide,
}

/// How many consecutive numbers the premise of demand 3 allows.
const MOST: u32 = 1 << 31;

impl Window {
    pub fn note(&mut self, number: u32) {
        *self = match *self {
            Window::Empty => Window::Within {
                low: number,
                span: 0,
            },
            Window::Within { low, span } => widened(low, span, number),
            Window::TooWide => Window::TooWide,
        };
    }

    /// Reports whether all numbers lie within 2^31 consecutive ones, where 0 follows 4,294,967,295.
    pub fn meets_premise(&self) -> bool {
        !matches!(self, Window::TooWide)
    }
}

/// Widens the window at one of its ends. A number outside it cannot be in reach of both ends,
/// because its distances from them add up to at least 2^32.
fn widened(low: u32, span: u32, number: u32) -> Window {
    let above_low = number.wrapping_sub(low);
    let below_high = low.wrapping_add(span).wrapping_sub(number);
    if above_low < MOST {
        let span = span.max(above_low);
        Window::Within { low, span }
    } else if below_high < MOST {
        let span = below_high;
        Window::Within { low: number, span }
    } else {
        Window::TooWide
    }
}
