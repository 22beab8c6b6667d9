// In the place of the module `ast::visit`, which the lowering never names.
