//! No part of the Rust: how T-02 trims a power under a modulus, where the settings ask for it.

use super::block::Block;
use super::node::Node;
use super::operation::Operation;
use super::statement::Statement;

impl Block {
    /// The right side of a trimmed binary; a modulus that needs more registers than its base is stored first.
    pub fn clear_modulus(&mut self, op: &Operation, left: &Node, right: Node) -> Node {
        let wide = right.ershov_number() > left.ershov_number();
        if !self.config.stores_moduli || !wide || op.as_str() != "_powi_mod_" {
            return right;
        }
        let stored = self.create_tmp();
        self.stmts.push(Statement::assign(stored.clone(), right));
        stored
    }
}
