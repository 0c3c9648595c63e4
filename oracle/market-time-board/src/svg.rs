// Ours, not given: the original's svg.rs was not among the given sources. The
// given lib.rs re-exports three names from it, and these are those names and
// nothing more. Their shapes are guesses; nothing is drawn.

//! A stub of the module that draws the board as SVG.

use crate::BoardView;

/// Stands for the original's options, of which we know only the name.
#[derive(Debug, Clone, Default, PartialEq, Eq)]
pub struct SvgOptions;

/// Draws nothing.
#[must_use]
pub fn render_svg(view: &BoardView) -> String {
    render_svg_with(view, &SvgOptions)
}

/// Draws nothing.
#[must_use]
pub fn render_svg_with(_view: &BoardView, _options: &SvgOptions) -> String {
    String::new()
}
