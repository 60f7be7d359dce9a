// SPDX-License-Identifier: Apache-2.0
//! The proved program's entries, as C sees them, by shorter names.

pub use fm3130_sys::{
    fm3130_ask as ask, fm3130_call as call, fm3130_catch_up as catch_up, fm3130_fresh as fresh,
    fm3130_judge as judge, fm3130_lamps as lamps, fm3130_line as line, fm3130_mend as mend,
    fm3130_read_events as read_events, fm3130_read_told as read_told, fm3130_run as run,
    fm3130_step as step, fm3130_trim_check as trim_check, fm3130_trim_propose as trim_propose,
    fm3130_trim_residue as trim_residue, fm3130_view_number as view_number,
    fm3130_write_events as write_events, fm3130_write_told as write_told, Filled, Judgement,
    Mended, Ran, Shown,
};
