//! A model of the SS-301 bench meter, its reader and its log, and of the Mercury 206 beside it, written from the papers alone:
//! documents 01 (scope) and 02 (requests), 002 (the operator's instruction 3.16), 000 (the Mercury 206) and the design's "Decided".
//! It is meant to be believed by reading, so it is plain rather than quick.

pub mod model;
