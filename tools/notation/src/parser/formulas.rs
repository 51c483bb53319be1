//! Formulas.

use super::{Parser, Read};
use crate::fault::Place;
use crate::tree::{Kind, Tree};

impl Parser {
    /// What `or` separates; it groups to the right.
    pub(super) fn formula(&mut self) -> Read<Tree> {
        let place = self.place();
        let left = self.conjuncts()?;
        if !self.take_or() {
            return Ok(left);
        }
        let right = self.node(Parser::formula)?;
        let sides = vec![self.not(left.place, left), self.not(right.place, right)];
        let both = self.tree(Kind::And, place, sides);
        Ok(self.not(place, both))
    }

    fn conjuncts(&mut self) -> Read<Tree> {
        let place = self.place();
        let left = self.prefixed()?;
        if !self.take_and() {
            return Ok(left);
        }
        let right = self.node(Parser::conjuncts)?;
        Ok(self.tree(Kind::And, place, vec![left, right]))
    }

    fn prefixed(&mut self) -> Read<Tree> {
        let place = self.place();
        if self.take_symbol("(") {
            let inside = self.node(Parser::formula)?;
            self.close(")", "(", place)?;
            Ok(inside)
        } else if self.at_abbreviation() {
            let instead = self.truth(place);
            self.abbreviation(Parser::formula, instead)
        } else {
            self.node(|parser| parser.unary(place))
        }
    }

    fn unary(&mut self, place: Place) -> Read<Tree> {
        if self.take_word("not") || self.take_bang("`!F` is written `not F`") {
            let body = self.prefixed()?;
            Ok(self.not(place, body))
        } else if self.take_symbol("<") {
            self.step(place)
        } else if self.take_symbol("[") {
            self.boxed(place)
        } else if self.take_word("true") || self.take_tt() {
            Ok(self.truth(place))
        } else if self.take_false() {
            let truth = self.truth(place);
            Ok(self.not(place, truth))
        } else if self.at_term() {
            self.equation(place)
        } else {
            Err(self.expected_formula())
        }
    }

    fn equation(&mut self, place: Place) -> Read<Tree> {
        let left = self.term()?;
        let differ = self.take_symbol("!=") || self.take_unequal();
        if !differ && !self.take_symbol("=") && !self.take_double_equals() {
            return Err(self.expected("`=` or `!=`"));
        }
        let right = self.term()?;
        let equal = self.tree(Kind::Equal, place, vec![left, right]);
        Ok(if differ { self.not(place, equal) } else { equal })
    }

    /// The step formula whose `<` is passed.
    fn step(&mut self, place: Place) -> Read<Tree> {
        let label = self.label(place)?;
        self.close(">", "<", place)?;
        let body = self.prefixed()?;
        Ok(self.around(label, body))
    }

    /// The box whose `[` is passed: not, the step formula, not.
    fn boxed(&mut self, place: Place) -> Read<Tree> {
        let label = self.label(place)?;
        self.close("]", "[", place)?;
        let body = self.prefixed()?;
        let inner = self.not(body.place, body);
        let step = self.around(label, inner);
        Ok(self.not(place, step))
    }

    /// The step formula of a label, around its body.
    fn around(&mut self, mut label: Tree, body: Tree) -> Tree {
        if label.kind == Kind::OutputStep {
            self.scope.unbind();
        }
        label.parts.push(body);
        label
    }

    /// A step formula without its body; an output step has bound its alias.
    fn label(&mut self, place: Place) -> Read<Tree> {
        if self.take_word("out") {
            let bracket = self.take_bracket("out c x");
            let channel = self.term()?;
            self.take_comma(bracket);
            let word = self.alias()?;
            self.take_closing(bracket);
            Ok(Tree { word: Some(word), ..self.tree(Kind::OutputStep, place, vec![channel]) })
        } else if self.take_word("in") {
            let bracket = self.take_bracket("in c M");
            let channel = self.term()?;
            self.take_comma(bracket);
            let message = self.label_message()?;
            self.take_closing(bracket);
            Ok(self.tree(Kind::InputStep, place, vec![channel, message]))
        } else if self.take_word("tau") {
            Ok(self.tree(Kind::SilentStep, place, Vec::new()))
        } else {
            Err(self.expected_label())
        }
    }

    fn truth(&self, place: Place) -> Tree {
        let name = || self.leaf(Kind::Name, place, 0);
        self.tree(Kind::Equal, place, vec![name(), name()])
    }

    fn not(&self, place: Place, body: Tree) -> Tree {
        self.tree(Kind::Not, place, vec![body])
    }
}
