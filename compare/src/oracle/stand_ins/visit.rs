//! Stand-in for `ast::visit`, of which the checks compared here use nothing.
