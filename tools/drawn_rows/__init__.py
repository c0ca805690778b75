"""Inputs for the definitions of crates/definitions, drawn anew, and the values that a reference
gives for them, which was written from the specification and from IS-GPS-200 alone."""
