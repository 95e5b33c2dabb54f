//! The command as a process: what it writes, where, and with which exit code. The proved programs are to be there:
//! `rt ci` and `rt run` build them.

mod check;
mod map;
mod packed;
mod replay;
mod scripts;
mod started;
mod tokens;
mod trouble;
