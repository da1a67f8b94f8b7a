//! Stub: the module isn't in the published text. Rules 1 to 6 don't reach it.
