//! The replica of the static library beside the second model, and by itself.

mod altered;
mod blocks;
mod build_script;
mod c;
mod c_journals;
mod c_replica;
mod counts;
mod crash;
mod ends;
mod files;
mod forged_windows;
mod givings;
mod groups;
mod header;
mod install;
mod journal_program;
mod kit;
mod lengths;
mod lent;
mod long;
mod looks;
mod manual;
mod marks;
mod outcomes;
mod own_writesets;
mod prototypes;
mod recorder;
mod restarts;
mod scenes;
mod scripts;
mod seeds;
mod stations;
mod story;
mod takes;
mod twins;
mod week;

// What a soak shares with the tests.
use soak::{both, lines, studio};
