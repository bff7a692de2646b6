//! Clauses, as the call takes them, and read from DIMACS.

/// Clauses of literals: 2x is the variable x, and 2x + 1 its negation. The literals of
/// clause c stand among the words from `spans[2c]` up to `spans[2c + 1]`.
pub struct Formula {
    pub variables: usize,
    pub spans: Vec<u32>,
    pub words: Vec<u32>,
}

/// More than these the call does not take.
const MOST_VARIABLES: usize = 0x7fff_fffe;
const MOST_WORDS: usize = u32::MAX as usize;

impl Formula {
    pub fn new(variables: usize) -> Formula {
        Formula { variables, spans: Vec::new(), words: Vec::new() }
    }

    /// Adds the clause of the literals that were pushed since the last one ended.
    pub fn end_clause(&mut self) {
        let from = self.spans.last().copied().unwrap_or(0);
        self.spans.extend([from, self.words.len() as u32]);
    }

    pub fn clauses(&self) -> impl Iterator<Item = &[u32]> {
        self.spans.chunks_exact(2).map(|span| &self.words[span[0] as usize..span[1] as usize])
    }

    /// Whether an assignment makes a literal of each clause true.
    pub fn is_model(&self, model: &[bool]) -> bool {
        let holds = |literal: &u32| model[(literal / 2) as usize] == literal.is_multiple_of(2);
        self.clauses().all(|clause| clause.iter().any(holds))
    }

    /// Reads DIMACS: comments, a header, and as many clauses as it says, each with a 0 at
    /// its end. A line that begins with % ends the file, as in some collections.
    pub fn read(text: &str) -> Result<Formula, String> {
        let mut reading = None;
        let mut line = 0;
        for text in text.lines() {
            line += 1;
            let text = text.trim();
            let read = match text.as_bytes().first() {
                None | Some(b'c') => Ok(()),
                Some(b'%') => break,
                Some(b'p') => Reading::header(&mut reading, text),
                Some(_) => Reading::clauses(&mut reading, text),
            };
            read.map_err(|what| format!("line {line}: {what}"))?;
        }
        let reading = reading.ok_or("there is no line 'p cnf VARIABLES CLAUSES'")?;
        reading.end().map_err(|what| format!("at the end, line {line}: {what}"))
    }
}

/// A formula that is being read, and how many clauses its header says.
struct Reading {
    formula: Formula,
    clauses: usize,
}

impl Reading {
    fn header(reading: &mut Option<Reading>, text: &str) -> Result<(), String> {
        if reading.is_some() {
            return Err("a second line that begins with p".into());
        }
        let words: Vec<&str> = text.split_whitespace().collect();
        let ["p", "cnf", variables, clauses] = words[..] else {
            return Err(format!("'{text}' is not 'p cnf VARIABLES CLAUSES'"));
        };
        let variables = number(variables)?;
        if variables > MOST_VARIABLES {
            return Err(format!("{variables} variables, and {MOST_VARIABLES} is the most"));
        }
        let clauses = number(clauses)?;
        *reading = Some(Reading { formula: Formula::new(variables), clauses });
        Ok(())
    }

    /// Reads the literals of a line, which may end clauses and begin others.
    fn clauses(reading: &mut Option<Reading>, text: &str) -> Result<(), String> {
        let Some(Reading { formula, clauses }) = reading else {
            return Err(format!("'{text}' stands before the line 'p cnf VARIABLES CLAUSES'"));
        };
        for word in text.split_whitespace() {
            let literal: i64 = word.parse().map_err(|_| format!("'{word}' is no literal"))?;
            let variable = literal.unsigned_abs() as usize;
            if variable > formula.variables {
                let most = formula.variables;
                return Err(format!("{literal} is of no variable: the header says {most}"));
            }
            if formula.spans.len() == 2 * *clauses {
                return Err(format!("more clauses than the {clauses} that the header says"));
            }
            if variable == 0 {
                formula.end_clause();
            } else if formula.words.len() == MOST_WORDS {
                return Err(format!("more than {MOST_WORDS} literals"));
            } else {
                formula.words.push(2 * (variable as u32 - 1) + u32::from(literal < 0));
            }
        }
        Ok(())
    }

    fn end(self) -> Result<Formula, String> {
        let Reading { formula, clauses } = self;
        let read = formula.spans.len() / 2;
        if formula.words.len() > formula.spans.last().map_or(0, |end| *end as usize) {
            Err("the last clause has no 0 at its end".into())
        } else if read != clauses {
            Err(format!("{read} clauses, but the header says {clauses}"))
        } else {
            Ok(formula)
        }
    }
}

fn number(word: &str) -> Result<usize, String> {
    word.parse().map_err(|_| format!("'{word}' is no number"))
}
