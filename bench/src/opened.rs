
// From here on bench/src/opened.rs, which bench/build puts behind the reference's own text: a glass in any state, and a look at
// what this file keeps private.

impl Panel {
    pub(crate) fn opened(mut self, states: Vec<i64>, border: i64, generation: u64) -> Panel {
        assert_eq!(states.len(), self.states.len(), "a state for each pixel");
        self.states = states;
        self.border = border;
        self.image.generation = generation;
        self
    }

    pub(crate) fn gates(&self) -> &[u16] {
        &self.gate_of_row
    }

    pub(crate) fn states(&self) -> (&[i64], i64) {
        (&self.states, self.border)
    }
}

impl Display {
    pub(crate) fn luts(&self) -> &[u8] {
        &self.luts
    }
}
