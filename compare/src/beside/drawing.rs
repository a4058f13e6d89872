//! A picture drawn whole at a setting: by the original, which serves at the standard and at threshold 0.5, or by the plain
//! enlargement, which serves at all.

use super::original;
use super::plain::{self, Clarity, Drawn};
use super::setting::like_standard;
use crate::panel::Screen;

#[derive(Clone, Copy, Debug, PartialEq, Eq)]
pub enum By {
    Original,
    Plain,
}

impl By {
    /// Those that serve at a setting.
    pub fn serving(clarity: Clarity) -> &'static [By] {
        if like_standard(clarity) {
            &[By::Original, By::Plain]
        } else {
            &[By::Plain]
        }
    }

    pub fn draw(self, clarity: Clarity, picture: &[u32], w: usize, h: usize) -> Drawn {
        match self {
            By::Plain => plain::draw(clarity, picture, w, h),
            By::Original => {
                assert!(like_standard(clarity), "the original has no setting");
                let original::Stages { metrics, weights, junctions, tags, output } = original::stages(picture, w, h);
                Drawn { metrics, weights, junctions, tags, output }
            }
        }
    }
}

/// The words alone, by the original where it serves; nine times by the plain enlargement is three times of all that three
/// times gives.
pub fn words(screen: Screen, clarity: Clarity, picture: &[u32], w: usize, h: usize) -> Vec<u32> {
    let plain = |picture: &[u32], w: usize, h: usize| plain::draw(clarity, picture, w, h).output;
    match (screen, like_standard(clarity)) {
        (Screen::Three, true) => original::scale(picture, w, h),
        (Screen::Nine, true) => original::scale9x(picture, w, h),
        (Screen::Three, false) => plain(picture, w, h),
        (Screen::Nine, false) => plain(&plain(picture, w, h), 3 * w, 3 * h),
    }
}
