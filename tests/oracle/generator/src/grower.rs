//! Grows one tree, record by record, in the order of the packed form.

use wire::put;

use crate::random::Random;
use crate::taste::{Form, Taste, random_number};

/// A name that nothing ever binds.
const UNBOUND: u32 = 99;

pub fn grow(random: Random, taste: Taste) -> Vec<u8> {
    let mut grower = Grower {
        random,
        taste,
        out: vec![],
        scopes: vec![],
        objects: 0,
        next_span: 100,
    };
    let size = grower.taste.size;
    grower.header();
    grower.expr(1, size);
    grower.out
}

struct Grower {
    random: Random,
    taste: Taste,
    out: Vec<u8>,
    /// the names of the open frames, innermost last; the externals are the first
    scopes: Vec<Vec<u32>>,
    /// how many objects are open
    objects: usize,
    next_span: u32,
}

/// What an expression's parts may grow to, handed out in order.
struct Shares(std::vec::IntoIter<usize>);

impl Shares {
    fn next(&mut self) -> usize {
        self.0.next().unwrap_or(0)
    }
}

impl Grower {
    fn put(&mut self, mark: &[u8; 2], numbers: &[u32]) {
        put(&mut self.out, mark, numbers);
    }

    fn header(&mut self) {
        let count = self.random.pick(&[0, 0, 0, 1, 1, 2, 3]);
        let externals: Vec<u32> = (0..count).map(|_| self.pool_name()).collect();
        let mut numbers = vec![externals.len() as u32];
        numbers.extend(&externals);
        self.put(b"JT", &numbers);
        self.scopes.push(externals);
    }

    // Numbers

    /// Different at each record, so that a wrong span shows.
    fn span(&mut self) -> u32 {
        self.next_span += 1;
        if self.taste.wild {
            random_number(&mut self.random)
        } else {
            self.next_span
        }
    }

    fn opaque(&mut self) -> u32 {
        if self.taste.wild {
            random_number(&mut self.random)
        } else {
            self.random.below(8) as u32
        }
    }

    fn pool_name(&mut self) -> u32 {
        self.random.pick(&self.taste.names)
    }

    /// A count up to the breadth of this tree, and not much over what may grow.
    fn some(&mut self, least: usize, budget: usize) -> usize {
        let most = self.taste.breadth.min(budget + 1);
        self.random.within(least, most.max(least))
    }

    /// The names of a new frame: all different, but for the duplicates that the taste wants.
    fn frame_names(&mut self, count: usize) -> Vec<u32> {
        let mut names: Vec<u32> = vec![];
        for index in 0..count {
            let name = if !names.is_empty() && self.random.percent(self.taste.duplicate) {
                self.random.pick(&names)
            } else {
                self.new_name(&names, index)
            };
            names.push(name);
        }
        names
    }

    fn new_name(&mut self, taken: &[u32], index: usize) -> u32 {
        let name = self.pool_name();
        if !taken.contains(&name) {
            return name;
        }
        let free = self
            .taste
            .names
            .iter()
            .copied()
            .find(|name| !taken.contains(name));
        // Past the pool each place in a frame has a name of its own.
        free.unwrap_or(1000 + index as u32)
    }

    fn used_name(&mut self) -> u32 {
        if self.random.percent(self.taste.stray) {
            let unbound = self.random.percent(30);
            return if unbound { UNBOUND } else { self.pool_name() };
        }
        let newest = self.scopes.iter().rposition(|scope| !scope.is_empty());
        // Without any name in scope a use is an error, which is fine now and then.
        let Some(newest) = newest else {
            return self.pool_name();
        };
        let near = self.random.percent(self.taste.near);
        let from = if near {
            newest
        } else {
            self.random.below(newest + 1)
        };
        let from = if self.scopes[from].is_empty() {
            newest
        } else {
            from
        };
        self.random.pick(&self.scopes[from])
    }

    /// So many draws of one chance in percent.
    fn chances(&mut self, count: usize, chance: usize) -> Vec<bool> {
        (0..count).map(|_| self.random.percent(chance)).collect()
    }

    fn shares(&mut self, budget: usize, parts: usize) -> Shares {
        let budget = budget.saturating_sub(1);
        let mut shares = vec![0; parts];
        if parts > 0 {
            let favourite = self.random.below(parts);
            let favoured = budget * self.taste.favour / 100;
            shares[favourite] = favoured;
            for _ in favoured..budget {
                shares[self.random.below(parts)] += 1;
            }
        }
        Shares(shares.into_iter())
    }

    // Expressions

    /// An expression at a nesting; what it grows to is about the budget.
    fn expr(&mut self, level: usize, budget: usize) {
        let room = self.taste.nesting - level;
        if budget <= 1 || room == 0 || self.random.percent(self.taste.leaf) {
            return self.leaf(level);
        }
        match self.taste.form(&mut self.random) {
            Form::Array => self.array(level, budget),
            Form::Unary => {
                let op = self.opaque();
                self.put(b"UN", &[op]);
                self.expr(level + 1, budget - 1);
            }
            Form::Binary => {
                let op = self.opaque();
                self.put(b"BI", &[op]);
                self.parts(level, budget, 2);
            }
            Form::Assert => {
                let message = self.random.flag();
                self.put(b"AS", &[message]);
                self.parts(level, budget, 2 + message);
            }
            Form::Local => self.local(level, budget),
            Form::EmptyLocal => {
                self.put(b"LO", &[0]);
                self.expr(level + 1, budget - 1);
            }
            Form::Chain => self.chain(level, budget),
            Form::Error => {
                let span = self.span();
                self.put(b"ER", &[span]);
                self.expr(level + 1, budget - 1);
            }
            Form::Apply => self.apply(level, budget),
            Form::Index => self.index(level, budget),
            Form::Function => self.function(level, budget),
            Form::If => {
                let has_else = self.random.flag();
                self.put(b"IF", &[has_else]);
                self.parts(level, budget, 2 + has_else);
            }
            Form::Slice => {
                let set = self.random.below(8) as u32;
                self.put(b"SC", &[set]);
                self.parts(level, budget, 1 + set.count_ones());
            }
            Form::Object => self.object(level, budget),
            Form::Extend if room >= 2 => {
                self.put(b"OX", &[]);
                let mut shares = self.shares(budget, 2);
                self.expr(level + 1, shares.next());
                self.object(level + 1, shares.next());
            }
            Form::DollarAfter if room >= 2 => self.dollar_after(level, budget),
            Form::Extend | Form::DollarAfter => self.leaf(level),
        }
    }

    /// So many expressions, one level down, that share what may grow.
    fn parts(&mut self, level: usize, budget: usize, count: u32) {
        let mut shares = self.shares(budget, count as usize);
        for _ in 0..count {
            self.expr(level + 1, shares.next());
        }
    }

    fn leaf(&mut self, level: usize) {
        match self.random.below(100) {
            0..66 => self.variable(),
            66..82 => self.constant(),
            82..93 => self.identity(),
            93..95 => self.import(),
            95..98 => self.constant_array(),
            // Objects without members and functions of one name are small too.
            98 => self.put(b"OB", &[0, 0, 0]),
            _ if level < self.taste.nesting => self.identity_function(level),
            _ => self.constant(),
        }
    }

    fn variable(&mut self) {
        let name = self.used_name();
        let span = self.span();
        self.put(b"VA", &[name, span]);
    }

    fn constant(&mut self) {
        let constant = self.opaque();
        self.put(b"TV", &[constant]);
    }

    fn constant_array(&mut self) {
        let count = self.random.pick(&[0, 0, 1, 2, 3]);
        self.put(b"AR", &[count]);
        for _ in 0..count {
            self.constant();
        }
    }

    fn identity(&mut self) {
        if self.objects == 0 && !self.random.percent(self.taste.stray) {
            return self.variable();
        }
        let kind = self.random.below(3) as u32;
        let span = self.span();
        self.put(b"ID", &[kind, span]);
    }

    fn import(&mut self) {
        // Jsonnet's grammar has no other import.
        let literal = u32::from(self.taste.printable || !self.random.percent(self.taste.stray));
        let (kind, path) = (self.opaque(), self.opaque());
        let span = self.span();
        self.put(b"IM", &[kind, span, literal, path]);
    }

    fn array(&mut self, level: usize, budget: usize) {
        let count = self.some(1, budget);
        self.put(b"AR", &[count as u32]);
        let mut shares = self.shares(budget, count);
        // Constants before something else must not pass for a constant array.
        let constants = if self.random.percent(20) {
            self.random.below(count + 1)
        } else {
            0
        };
        for index in 0..count {
            let share = shares.next();
            if index < constants {
                self.constant()
            } else {
                self.expr(level + 1, share)
            }
        }
    }

    fn apply(&mut self, level: usize, budget: usize) {
        let (unnamed, named) = (self.some(0, budget), self.some(0, budget));
        let tailstrict = self.random.flag();
        let span = self.span();
        self.put(b"AP", &[unnamed as u32, named as u32, tailstrict, span]);
        let mut shares = self.shares(budget, 1 + unnamed + named);
        for _ in 0..1 + unnamed {
            self.expr(level + 1, shares.next());
        }
        for index in 0..named {
            let repeated = !self.taste.printable && self.random.percent(self.taste.duplicate);
            let name = if repeated {
                self.pool_name()
            } else {
                1000 + index as u32
            };
            self.put(b"NA", &[name]);
            self.expr(level + 1, shares.next());
        }
    }

    fn index(&mut self, level: usize, budget: usize) {
        let parts = self.some(0, budget);
        self.put(b"IX", &[parts as u32]);
        let mut shares = self.shares(budget, 1 + parts);
        self.expr(level + 1, shares.next());
        for _ in 0..parts {
            let span = self.span();
            self.put(b"PT", &[span]);
            self.expr(level + 1, shares.next());
        }
    }

    /// `$` after the outermost object is outside again.
    fn dollar_after(&mut self, level: usize, budget: usize) {
        let op = self.opaque();
        self.put(b"BI", &[op]);
        self.object(level + 1, budget - 1);
        let span = self.span();
        self.put(b"ID", &[2, span]);
    }

    // Binds

    fn local(&mut self, level: usize, budget: usize) {
        let count = self.some(1, budget);
        let names = self.frame_names(count);
        self.put(b"LO", &[count as u32]);
        let mut shares = self.shares(budget, count + 1);
        self.scopes.push(names.clone());
        for name in names {
            self.bind(level, name, shares.next());
        }
        self.expr(level + 1, shares.next());
        self.scopes.pop();
    }

    fn bind(&mut self, level: usize, name: u32, budget: usize) {
        let span = self.span();
        let function = self.random.percent(self.taste.function_bind);
        if function && level + 2 <= self.taste.nesting {
            self.put(b"BF", &[name, span]);
            self.function(level + 1, budget);
        } else {
            self.put(b"BV", &[name, span]);
            self.expr(level + 1, budget);
        }
    }

    /// Names that refer to each other in a row, in some order: the loops need many rounds.
    fn chain(&mut self, level: usize, budget: usize) {
        let count = self.random.within(2, self.taste.breadth.clamp(3, 12) + 1);
        let names: Vec<u32> = (0..count).map(|index| 1000 + index as u32).collect();
        let mut order: Vec<usize> = (0..count).collect();
        match self.random.below(4) {
            0 => order.reverse(),
            1 => self.random.shuffle(&mut order),
            _ => {}
        }
        self.put(b"LO", &[count as u32]);
        self.scopes.push(names.clone());
        for place in order {
            let next = names.get(place + 1).copied();
            self.link(level, names[place], next);
        }
        if self.random.percent(70) {
            let span = self.span();
            self.put(b"VA", &[names[0], span]);
        } else {
            self.expr(level + 1, budget.saturating_sub(count));
        }
        self.scopes.pop();
    }

    /// One name of a chain: it uses the next one, or at the end whatever is in scope.
    fn link(&mut self, level: usize, name: u32, next: Option<u32>) {
        let (span, use_span) = (self.span(), self.span());
        self.put(b"BV", &[name, span]);
        match next {
            Some(next) if self.random.percent(15) && level + 2 <= self.taste.nesting => {
                self.put(b"AR", &[1]);
                self.put(b"VA", &[next, use_span]);
            }
            Some(next) => self.put(b"VA", &[next, use_span]),
            None => self.leaf(level + 1),
        }
    }

    // Functions

    /// An `FN` with room for at least one level more.
    fn function(&mut self, level: usize, budget: usize) {
        if self.random.percent(self.taste.identity) {
            return self.identity_function(level);
        }
        let count = self.some(0, budget);
        let names = self.frame_names(count);
        let span = self.span();
        self.put(b"FN", &[span, count as u32]);
        let defaults = self.chances(count, self.taste.default);
        let mut shares = self.shares(budget, 1 + how_many(&defaults));
        self.scopes.push(names.clone());
        for (name, has_default) in names.into_iter().zip(defaults) {
            let default = has_default.then(|| shares.next());
            self.parameter(level, name, default);
        }
        self.expr(level + 1, shares.next());
        self.scopes.pop();
    }

    /// With what its default may grow to, if it has one.
    fn parameter(&mut self, level: usize, name: u32, default: Option<usize>) {
        let span = self.span();
        self.put(b"PA", &[name, span, u32::from(default.is_some())]);
        if let Some(budget) = default {
            self.expr(level + 1, budget);
        }
    }

    /// `function(x) x`, with a dropped parameter after it or its body in an empty local now and then.
    fn identity_function(&mut self, level: usize) {
        let name = self.pool_name();
        let dropped = if self.random.percent(self.taste.duplicate) {
            1
        } else {
            0
        };
        let (span, first_span) = (self.span(), self.span());
        self.put(b"FN", &[span, 1 + dropped]);
        self.put(b"PA", &[name, first_span, 0]);
        self.scopes.push(vec![name]);
        for _ in 0..dropped {
            let default = self.random.percent(self.taste.default).then_some(1);
            self.parameter(level, name, default);
        }
        if self.random.percent(10) && level + 2 <= self.taste.nesting {
            self.put(b"LO", &[0]);
        }
        let span = self.span();
        self.put(b"VA", &[name, span]);
        self.scopes.pop();
    }

    // Objects

    /// An `OB` with room for at least one level more.
    fn object(&mut self, level: usize, budget: usize) {
        let binds = if self.random.percent(50) {
            self.some(0, budget)
        } else {
            0
        };
        let assertions = if self.random.percent(25) {
            self.some(0, budget).min(4)
        } else {
            0
        };
        let fields = self.some(usize::from(budget > 20), budget);
        self.put(b"OB", &[binds as u32, assertions as u32, fields as u32]);
        let computed = self.chances(fields, self.taste.computed);
        let messages = self.chances(assertions, 50);
        let expressions = how_many(&computed) + binds + assertions + how_many(&messages) + fields;
        let mut shares = self.shares(budget, expressions);
        let mut methods = vec![];
        for (index, computed) in computed.into_iter().enumerate() {
            let computed = computed.then(|| shares.next());
            methods.push(self.head(level, index, computed));
        }
        let names = self.frame_names(binds);
        self.scopes.push(names.clone());
        self.objects += 1;
        for name in names {
            self.bind(level, name, shares.next());
        }
        for message in messages {
            self.put(b"AT", &[u32::from(message)]);
            for _ in 0..1 + u32::from(message) {
                self.expr(level + 1, shares.next());
            }
        }
        for method in methods {
            let share = shares.next();
            if method {
                self.function(level + 1, share)
            } else {
                self.expr(level + 1, share)
            }
        }
        self.objects -= 1;
        self.scopes.pop();
    }

    /// With what its name may grow to, if that is computed; tells whether it is a method's.
    fn head(&mut self, level: usize, index: usize, computed: Option<usize>) -> bool {
        let name = if computed.is_some() {
            self.opaque()
        } else {
            self.field_name(index)
        };
        let span = self.span();
        let function = self.random.percent(self.taste.function_bind);
        let method = function && level + 2 <= self.taste.nesting;
        // Jsonnet's grammar has no method with a plus.
        let plus = if method && self.taste.printable {
            0
        } else {
            self.random.flag()
        };
        let visibility = self.random.below(3) as u32;
        let kind = u32::from(computed.is_some());
        self.put(
            b"FH",
            &[kind, name, span, plus, visibility, u32::from(method)],
        );
        if let Some(budget) = computed {
            self.expr(level + 1, budget);
        }
        method
    }

    /// The specification wants them all different.
    fn field_name(&mut self, index: usize) -> u32 {
        if self.taste.printable || self.random.percent(60) {
            return 40 + index as u32;
        }
        self.random.pick(&self.taste.fields)
    }
}

fn how_many(draws: &[bool]) -> usize {
    draws.iter().filter(|draw| **draw).count()
}
