//! The names of registers: those of the local variables that live at an instruction.
use lafzimdo::Local;

/// More of them live at once in no function that Lua compiles (200), nor has an instruction more registers.
const MOST: usize = 256;

/// The local variables of a function, gone through with its instructions. As Lua's debugger sees it (lfunc.c, `luaF_getlocalname`): of the variables that live at a pc, the n-th is in register n.
pub struct Names<'a> {
    locals: Vec<Local<&'a [u8]>>,
    /// The register of each that has lived so far.
    registers: Vec<Option<usize>>,
    next: usize,
    live: Vec<usize>,
}

impl<'a> Names<'a> {
    pub fn new(locals: impl Iterator<Item = Local<&'a [u8]>>) -> Names<'a> {
        let locals: Vec<_> = locals.collect();
        Names { registers: vec![None; locals.len()], locals, next: 0, live: Vec::new() }
    }

    /// Goes on to a pc. From call to call the pcs rise.
    pub fn go_on(&mut self, pc: u64) {
        self.live.retain(|local| pc < self.locals[*local].endpc);
        while let Some(local) = self.locals.get(self.next).filter(|local| local.startpc <= pc) {
            if pc < local.endpc {
                self.registers[self.next] = Some(self.live.len());
                self.live.push(self.next);
            }
            self.next += 1;
        }
        if self.live.len() > MOST {
            // No register can be told any more, and going on would cost too much.
            self.live.clear();
            self.next = self.locals.len();
        }
    }

    /// The name of a register, unless it is one of Lua's own, as `(for state)`.
    pub fn of(&self, register: i64) -> Option<&'a [u8]> {
        let live = self.live.get(usize::try_from(register).ok()?)?;
        Some(self.locals[*live].name).filter(|name| !name.starts_with(b"("))
    }

    /// Each local variable, with its register where it is known.
    pub fn locals(&self) -> impl Iterator<Item = (Option<usize>, &Local<&'a [u8]>)> {
        self.registers.iter().copied().zip(&self.locals)
    }
}

#[cfg(test)]
mod tests {
    use super::*;

    #[test]
    fn registers_are_those_of_the_living() {
        let local = |name: &'static str, startpc, endpc| Local { name: name.as_bytes(), startpc, endpc };
        let locals =
            [local("a", 0, 9), local("b", 1, 3), local("never", 2, 2), local("(for state)", 3, 5), local("c", 4, 9)];
        let mut names = Names::new(locals.into_iter());
        let mut told = Vec::new();
        for pc in 0..7 {
            names.go_on(pc);
            told.push([0, 1, 2].map(|register| names.of(register).map(|name| name[0] as char)));
        }
        let (a, b, c) = (Some('a'), Some('b'), Some('c'));
        let expected =
            [[a, None, None], [a, b, None], [a, b, None], [a, None, None], [a, None, c], [a, c, None], [a, c, None]];
        assert_eq!(told, expected);
        let registers: Vec<_> = names.locals().map(|(register, _)| register).collect();
        assert_eq!(registers, [Some(0), Some(1), None, Some(1), Some(2)]);
    }

    #[test]
    fn too_many() {
        let all = (0..1000).map(|_| Local { name: &b"x"[..], startpc: 0, endpc: 9 });
        let mut names = Names::new(all);
        names.go_on(0);
        assert_eq!(names.of(0), None);
    }
}
