//! Stand-in: nothing given uses it.
