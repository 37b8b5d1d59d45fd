//! Makes TypeCodes by chance that are mostly accepted.

use chance::Chance;
use second::typecode::{
    ALIAS, ARRAY, DEEPEST, ENUM, EXCEPTION, MOST_KINDS, NULL, OBJREF, SEQUENCE, STRING, STRUCT,
    UNION, VOID,
};

use crate::tree::{Aim, Choice, Labels, Node, CHOOSING, PRIMITIVES};

/// A kind that was begun.
#[derive(Clone, Copy)]
struct Begun {
    /// Its kind.
    kind: u32,
    /// Whether it is still being made.
    open: bool,
    /// The labels of a union over it, once it is made.
    labels: Option<Labels>,
}

/// Makes a type. What it makes first is written first, so that the kinds' own
/// numbers are those of [`Aim::Kind`].
pub struct Maker<'a> {
    /// What everything is chosen by.
    pub chance: &'a mut Chance,
    /// The kinds begun so far.
    begun: Vec<Begun>,
    /// The numbers of those that are open, the top first.
    open: Vec<usize>,
    /// From so many kinds on there are indirections instead, if there can be.
    pub room: usize,
    /// The deepest nesting.
    pub deepest: usize,
    /// One type in so many is an indirection.
    pub pointers: usize,
    /// One indirection in so many aims at a struct or union that is open, with
    /// no sequence between.
    pub loops: usize,
    /// The most members of a struct or union.
    pub members: usize,
}

impl<'a> Maker<'a> {
    /// A maker of types of all sizes.
    pub fn new(chance: &'a mut Chance) -> Self {
        let room = chance.pick(&[1, 3, 6, 6, 12, 12, 30, MOST_KINDS]);
        let deepest = chance.pick(&[2, 3, 3, 4, 4, 6, DEEPEST]);
        let pointers = chance.pick(&[2, 4, 8]);
        let members = chance.pick(&[1, 2, 3, 4, 6]);
        Maker {
            chance,
            begun: Vec::new(),
            open: Vec::new(),
            room,
            deepest,
            pointers,
            loops: 40,
            members,
        }
    }

    /// The number of kinds begun so far.
    pub fn kinds(&self) -> usize {
        self.begun.len()
    }

    /// The type at the top.
    pub fn top(&mut self) -> Node {
        match self.chance.below(20) {
            0 => self.plain(NULL),
            1 => self.plain(VOID),
            2..=3 => self.exception(),
            4..=5 => self.leaf(),
            _ => self.compound(1),
        }
    }

    /// A type inside another, at this nesting.
    pub fn inner(&mut self, nesting: usize) -> Node {
        let full = self.begun.len() >= self.room;
        if full || self.chance.once_in(self.pointers) {
            if let Some(node) = self.indirection() {
                return node;
            }
        }
        if full || nesting >= self.deepest || self.chance.once_in(3) {
            return self.leaf();
        }
        self.compound(nesting)
    }

    /// An indirection to what may be aimed at here, if there is anything.
    pub fn indirection(&mut self) -> Option<Node> {
        let near = self.chance.once_in(self.loops);
        let last = self.last_sequence();
        let fit = |&number: &usize| {
            let begun = self.begun[number];
            let named = [STRUCT, UNION].contains(&begun.kind);
            !begun.open || named && (near || last.is_some_and(|last| number < last))
        };
        let fitting: Vec<usize> = (0..self.begun.len()).filter(fit).collect();
        let open = |&number: &usize| self.begun[number].open;
        let back: Vec<usize> = fitting.iter().copied().filter(open).collect();
        let choices = match !back.is_empty() && self.chance.once_in(2) {
            true => back,
            false => fitting,
        };
        if choices.is_empty() {
            return None;
        }
        let number = self.chance.pick(&choices);
        Some(Node::indirection(Aim::Kind(number)))
    }

    /// The number of the innermost open sequence.
    fn last_sequence(&self) -> Option<usize> {
        let sequence = |number: &&usize| self.begun[**number].kind == SEQUENCE;
        self.open.iter().rev().find(sequence).copied()
    }

    /// Begins a kind, and gives its number.
    fn begin(&mut self, kind: u32) -> usize {
        self.begun.push(Begun {
            kind,
            open: true,
            labels: None,
        });
        let number = self.begun.len() - 1;
        self.open.push(number);
        number
    }

    /// Ends the kind that was begun last.
    fn end(&mut self, labels: Option<Labels>) {
        if let Some(number) = self.open.pop() {
            self.begun[number].open = false;
            self.begun[number].labels = labels;
        }
    }

    /// A kind without parameters.
    pub fn plain(&mut self, kind: u32) -> Node {
        self.begin(kind);
        self.end(Labels::of_kind(kind));
        Node::plain(kind)
    }

    /// A type with no other inside.
    pub fn leaf(&mut self) -> Node {
        match self.chance.below(8) {
            0 => self.string(),
            1 => self.objref(),
            2 => self.enumeration(),
            _ => {
                let kind = self.chance.pick(&PRIMITIVES);
                self.plain(kind)
            }
        }
    }

    /// A string.
    fn string(&mut self) -> Node {
        self.begin(STRING);
        self.end(None);
        Node::string(self.chance.pick(&[0, 1, 80, u32::MAX]))
    }

    /// An objref.
    fn objref(&mut self) -> Node {
        self.begin(OBJREF);
        self.end(None);
        Node::objref(self.chance)
    }

    /// An enum.
    pub fn enumeration(&mut self) -> Node {
        let names = self.chance.pick(&[1, 2, 2, 3, 4, 9]);
        self.begin(ENUM);
        self.end(Some(Labels {
            kind: ENUM,
            names: names as u64,
        }));
        Node::enumeration(self.chance, names)
    }

    /// A type with others inside, at this nesting.
    pub fn compound(&mut self, nesting: usize) -> Node {
        match self.chance.below(6) {
            0 | 1 => self.structure(nesting),
            2 => self.union(nesting),
            3 => self.sequence(nesting),
            4 => self.array(nesting),
            _ => self.alias(nesting),
        }
    }

    /// Types at this nesting, so many of them.
    fn several(&mut self, nesting: usize, count: usize) -> Vec<Node> {
        (0..count).map(|_| self.inner(nesting)).collect()
    }

    /// A struct.
    pub fn structure(&mut self, nesting: usize) -> Node {
        self.begin(STRUCT);
        let count = 1 + self.chance.below(self.members);
        let members = self.several(nesting + 1, count);
        self.end(None);
        Node::of_members(self.chance, members)
    }

    /// An exception, which is at the top.
    pub fn exception(&mut self) -> Node {
        self.begin(EXCEPTION);
        let count = self.chance.below(1 + self.members);
        let members = self.several(2, count);
        self.end(None);
        Node::with_members(self.chance, EXCEPTION, members)
    }

    /// A sequence.
    pub fn sequence(&mut self, nesting: usize) -> Node {
        self.begin(SEQUENCE);
        let of = self.inner(nesting + 1);
        self.end(None);
        Node::sequence(self.chance, of)
    }

    /// An array.
    pub fn array(&mut self, nesting: usize) -> Node {
        self.begin(ARRAY);
        let of = self.inner(nesting + 1);
        self.end(None);
        Node::array(self.chance, of)
    }

    /// An alias.
    pub fn alias(&mut self, nesting: usize) -> Node {
        let number = self.begin(ALIAS);
        let of = self.inner(nesting + 1);
        // What it stands for was made next, if it is no indirection.
        let next = self.begun.get(number + 1).and_then(|next| next.labels);
        let labels = self.labels_at(&of).or(next);
        self.end(labels);
        Node::alias(self.chance, of)
    }

    /// The labels of a union over the target of an indirection.
    fn labels_at(&self, node: &Node) -> Option<Labels> {
        self.begun[node.aimed_kind()?].labels
    }

    /// A union.
    pub fn union(&mut self, nesting: usize) -> Node {
        self.begin(UNION);
        let (discriminant, labels) = self.discriminant(nesting + 1);
        let most = 1 + self.chance.below(self.members + 1);
        let union = self.union_over(nesting, discriminant, labels, most);
        self.end(None);
        union
    }

    /// A union over a discriminant that is made, with at most so many cases.
    pub fn union_over(
        &mut self,
        nesting: usize,
        discriminant: Node,
        labels: Labels,
        most: usize,
    ) -> Node {
        let mut cases = Vec::new();
        for label in labels.different(self.chance, most) {
            cases.push((label, self.inner(nesting + 1)));
        }
        let last = cases.len() as i32 - 1;
        let any = self.chance.below(cases.len()) as i32;
        let choice = Choice {
            discriminant,
            width: labels.width(),
            default: self.chance.pick(&[-1, -1, 0, last, any]),
        };
        Node::union(self.chance, choice, cases)
    }

    /// A discriminant: a primitive, an enum, an alias of such, or an
    /// indirection to one of these.
    fn discriminant(&mut self, nesting: usize) -> (Node, Labels) {
        if self.chance.once_in(3) {
            if let Some(found) = self.discriminant_before() {
                return found;
            }
        }
        if nesting < self.deepest && self.chance.once_in(4) {
            self.begin(ALIAS);
            let (of, labels) = self.discriminant(nesting + 1);
            self.end(Some(labels));
            return (Node::alias(self.chance, of), labels);
        }
        let node = match self.chance.once_in(3) {
            true => self.enumeration(),
            false => {
                let kind = self.chance.pick(&CHOOSING);
                self.plain(kind)
            }
        };
        let last = self.begun.last().and_then(|last| last.labels);
        // Both of these can be chosen by.
        let any = Labels {
            kind: ENUM,
            names: 1,
        };
        (node, last.unwrap_or(any))
    }

    /// An indirection to a type that a union can be chosen by.
    fn discriminant_before(&mut self) -> Option<(Node, Labels)> {
        let mut found = Vec::new();
        for (number, begun) in self.begun.iter().enumerate() {
            if let Some(labels) = begun.labels {
                found.push((number, labels));
            }
        }
        if found.is_empty() {
            return None;
        }
        let (number, labels) = self.chance.pick(&found);
        Some((Node::indirection(Aim::Kind(number)), labels))
    }
}
