// SPDX-License-Identifier: Apache-2.0 OR MIT
//! Questions 1 to 8: is this a model file within the limits?

use crate::field::*;
use crate::misreading::Misreading::*;
use crate::Rules;

/// A "no": the question's number and the place it is about.
#[derive(Debug, Clone, Copy, PartialEq, Eq)]
pub struct Refusal {
    pub number: u8,
    pub place: usize,
}

impl Refusal {
    pub fn new(number: u8, place: usize) -> Self {
        Refusal { number, place }
    }
}

/// The parts that may stand in one place of a field.
struct Slot {
    accepts: fn(u8) -> bool,
    needed: bool,
    repeats: bool,
}

fn one(accepts: fn(u8) -> bool) -> Slot {
    Slot {
        accepts,
        needed: true,
        repeats: false,
    }
}

fn at_most_one(accepts: fn(u8) -> bool) -> Slot {
    Slot {
        accepts,
        needed: false,
        repeats: false,
    }
}

fn any(accepts: fn(u8) -> bool) -> Slot {
    Slot {
        accepts,
        needed: false,
        repeats: true,
    }
}

/// What encloses a list of fields: the file, or the content of a field.
struct Enclosure {
    tag: Option<u8>,
    place: usize,
    start: usize,
    end: usize,
    /// Depth of the expressions that stand directly in it.
    depth: usize,
}

impl Rules {
    /// The fields of a file that passes questions 1 to 8.
    pub fn file_fields<'a>(&self, file: &'a [u8]) -> Result<Vec<Field<'a>>, Refusal> {
        let first_length = self.length_question(file);
        if !self.misreads(LengthAskedLast) {
            first_length?;
        }
        let whole = Enclosure {
            tag: None,
            place: 0,
            start: 0,
            end: file.len(),
            depth: 0,
        };
        let fields = self.parts(file, &whole)?;
        if self.misreads(EntriesCountedBeforeNames) {
            self.entry_count_question(&fields)?;
        }
        self.state_name_question(&fields)?;
        self.entry_count_question(&fields)?;
        first_length?;
        Ok(fields)
    }

    fn length_question(&self, file: &[u8]) -> Result<(), Refusal> {
        let limit = match self.misreading {
            Some(FileLimitOneLess) => 32_767,
            Some(FileLimitOneMore) => 32_769,
            _ => 32_768,
        };
        let place = self.reading(TooLongPlaceIsLimit, limit, 0);
        refuse_if(file.len() > limit, 1, place)
    }

    /// Questions 2 to 6 for the fields in an enclosure, each field's parts
    /// before its neighbour.
    fn parts<'a>(&self, file: &'a [u8], outer: &Enclosure) -> Result<Vec<Field<'a>>, Refusal> {
        let neighbours_first =
            self.misreads(NeighboursBeforeParts) || self.misreads(MissingAskedBeforeParts);
        let row = self.row(outer.tag);
        let mut slots = &row[..];
        let mut fields = Vec::new();
        let mut place = outer.start;
        while place < outer.end && !self.is_passed_over(outer.end - place) {
            if outer.tag.is_none() && self.is_unknown_item(file[place]) {
                place = self.content_range(file, place, outer)?.1;
                continue;
            }
            let mut field = self.head(file, place, outer, &mut slots)?;
            place = field.place + 3 + field.content.len();
            if !neighbours_first {
                self.read_parts(file, &mut field, outer)?;
            }
            fields.push(field);
        }
        let missing = slots.iter().any(|slot| slot.needed);
        let missing_place = self.reading(MissingPlaceIsEnd, outer.end, outer.place);
        if self.misreads(MissingAskedBeforeParts) {
            refuse_if(missing, 6, missing_place)?;
        }
        if neighbours_first {
            for field in &mut fields {
                self.read_parts(file, field, outer)?;
            }
        }
        refuse_if(missing, 6, missing_place)?;
        Ok(fields)
    }

    /// The misreading that a remainder too short for a head is passed over.
    fn is_passed_over(&self, remainder: usize) -> bool {
        remainder < 3 && self.misreads(ShortRemainderPassedOver)
    }

    /// The misreading that unknown fields of the file are passed over.
    fn is_unknown_item(&self, tag: u8) -> bool {
        !is_item(tag) && self.misreads(UnknownItemPassedOver)
    }

    fn read_parts<'a>(
        &self,
        file: &'a [u8],
        field: &mut Field<'a>,
        outer: &Enclosure,
    ) -> Result<(), Refusal> {
        if is_text(field.tag) || is_empty(field.tag) {
            return Ok(());
        }
        let enclosure = Enclosure {
            tag: Some(field.tag),
            place: field.place,
            start: field.place + 3,
            end: field.place + 3 + field.content.len(),
            depth: self.depth_inside(field.tag, outer.depth),
        };
        field.parts = self.parts(file, &enclosure)?;
        Ok(())
    }

    /// Depth of the expressions directly inside a field with a given tag,
    /// which itself stands where expressions have depth `depth`.
    fn depth_inside(&self, tag: u8, depth: usize) -> usize {
        match tag {
            STATE if self.misreads(DefaultDepthZero) => 0,
            EMIT if self.misreads(EmitArgumentsDepthTwo) => 2,
            SET..=SUBTRACT_FROM if self.misreads(AssignmentDepthZero) => 0,
            _ if is_wrapper(tag) && self.misreads(WrappersAddNoDepth) => depth,
            _ if is_expression(tag) => depth + 1,
            _ if self.misreads(DepthFromZero) => 0,
            _ => 1,
        }
    }

    /// Questions 2 to 5 for the field at a place; its parts are not read yet.
    fn head<'a>(
        &self,
        file: &'a [u8],
        place: usize,
        outer: &Enclosure,
        slots: &mut &[Slot],
    ) -> Result<Field<'a>, Refusal> {
        let tag = file[place];
        if self.misreads(TagAskedBeforeFit) {
            self.tag_question(tag, place, outer, &mut &**slots)?;
        }
        let (start, end) = self.content_range(file, place, outer)?;
        self.tag_question(tag, place, outer, slots)?;
        let content = &file[start..end];
        if self.misreads(TextAskedBeforeDepth) {
            self.content_question(tag, place, content)?;
        }
        self.depth_question(tag, place, outer)?;
        self.content_question(tag, place, content)?;
        Ok(Field {
            place,
            tag,
            content,
            parts: Vec::new(),
        })
    }

    /// Question 2: start and end of the content.
    fn content_range(
        &self,
        file: &[u8],
        place: usize,
        outer: &Enclosure,
    ) -> Result<(usize, usize), Refusal> {
        let limit = self.reading(FitAskedOfFileOnly, file.len(), outer.end);
        let refusal_place = self.reading(FitPlaceOfOuter, outer.place, place);
        let start = place + 3;
        refuse_if(start > limit, 2, refusal_place)?;
        let length = match self.misreads(LengthLeastSignificantFirst) {
            true => u16::from_le_bytes([file[place + 1], file[place + 2]]),
            false => u16::from_be_bytes([file[place + 1], file[place + 2]]),
        };
        let mut end = start + usize::from(length);
        if self.misreads(ContentCutToFit) {
            end = end.min(limit);
        }
        refuse_if(end > limit, 2, refusal_place)?;
        Ok((start, end))
    }

    /// Question 3: takes the slot that the tag fills, and those passed over.
    fn tag_question(
        &self,
        tag: u8,
        place: usize,
        outer: &Enclosure,
        slots: &mut &[Slot],
    ) -> Result<(), Refusal> {
        let reachable = slots
            .iter()
            .position(|slot| slot.needed)
            .map_or(slots.len(), |first| first + 1);
        let found = slots[..reachable]
            .iter()
            .position(|slot| (slot.accepts)(tag));
        let Some(index) = found else {
            if self.misreads(WrongTagIsMissingPart) && reachable > 0 && slots[reachable - 1].needed
            {
                return Err(Refusal::new(6, outer.place));
            }
            if self.misreads(FurtherPartsPassedOver)
                && slots.is_empty()
                && outer.tag.is_some_and(is_expression)
            {
                return Ok(());
            }
            let refusal_place = self.reading(TagPlaceOfOuter, outer.place, place);
            return Err(Refusal::new(3, refusal_place));
        };
        let next = if slots[index].repeats {
            index
        } else {
            index + 1
        };
        *slots = &slots[next..];
        Ok(())
    }

    /// Question 4.
    fn depth_question(&self, tag: u8, place: usize, outer: &Enclosure) -> Result<(), Refusal> {
        let limit = self.reading(DepthLimitOneLess, 31, 32);
        let refusal_place = self.reading(DepthPlaceOfOuter, outer.place, place);
        refuse_if(is_expression(tag) && outer.depth > limit, 4, refusal_place)
    }

    /// Question 5.
    fn content_question(&self, tag: u8, place: usize, content: &[u8]) -> Result<(), Refusal> {
        if is_empty(tag) {
            let filled = !content.is_empty() && !self.misreads(FilledEmptyFieldAllowed);
            return refuse_if(filled, 5, place);
        }
        if !is_text(tag) {
            return Ok(());
        }
        refuse_if(content.is_empty() && !self.may_be_empty(tag), 5, place)?;
        match content
            .iter()
            .position(|&byte| !self.is_text_byte(tag, byte))
        {
            Some(offset) if self.misreads(TextPlaceIsBadByte) => {
                Err(Refusal::new(5, place + 3 + offset))
            }
            Some(_) => Err(Refusal::new(5, place)),
            None => Ok(()),
        }
    }

    fn may_be_empty(&self, tag: u8) -> bool {
        match tag {
            NAME => self.misreads(EmptyNameAllowed),
            TYPE_NAME => self.misreads(EmptyTypeNameAllowed),
            IDENTIFIER => self.misreads(EmptyIdentifierAllowed),
            INTEGER => !self.misreads(EmptyIntegerForbidden),
            DATE => !self.misreads(EmptyDateForbidden),
            _ => !self.misreads(EmptyStringForbidden),
        }
    }

    fn is_text_byte(&self, tag: u8, byte: u8) -> bool {
        match byte {
            _ if tag == STRING && self.misreads(StringsUnchecked) => true,
            _ if tag == INTEGER && self.misreads(IntegersOfDigitsOnly) => {
                byte.is_ascii_digit() || byte == b'_'
            }
            0x1F => self.misreads(ByteBeforeSpaceAllowed),
            0x20 => !self.misreads(SpaceForbidden),
            0x7E => !self.misreads(TildeForbidden),
            0x7F => self.misreads(DeleteAllowed),
            0x80.. => self.misreads(HighBytesAllowed),
            _ => byte > 0x20,
        }
    }

    /// The parts that a field with a given tag has, in order; none is the file.
    fn row(&self, tag: Option<u8>) -> Vec<Slot> {
        let Some(tag) = tag else {
            return self.file_row();
        };
        let name = || one(|tag| tag == NAME);
        let expression = || one(is_expression);
        match tag {
            STATE if self.misreads(SeveralDefaultsAllowed) => {
                vec![name(), self.type_slot(), any(is_expression)]
            }
            STATE => vec![name(), self.type_slot(), at_most_one(is_expression)],
            GENESIS if self.misreads(GenesisOfSeveralStatements) => {
                vec![one(is_statement), any(is_statement)]
            }
            GENESIS => vec![one(is_statement)],
            ENTRY => self.entry_row(),
            PARAMETER => vec![name(), self.type_slot()],
            LET if self.misreads(LetNameOptional) => {
                vec![at_most_one(|tag| tag == NAME), expression()]
            }
            LET => vec![name(), expression()],
            EMIT if self.misreads(EmitNeedsArgument) => {
                vec![name(), expression(), any(is_expression)]
            }
            EMIT => vec![name(), any(is_expression)],
            SET | ADD_TO | SUBTRACT_FROM => vec![expression(), expression()],
            MEMBER => vec![expression(), name()],
            CALL if self.misreads(CallNeedsArgument) => {
                vec![expression(), expression(), any(is_expression)]
            }
            CALL => vec![expression(), any(is_expression)],
            _ if is_binary(tag) => vec![expression(), expression()],
            _ => vec![expression()],
        }
    }

    fn file_row(&self) -> Vec<Slot> {
        match self.misreads(ItemsInTagOrder) {
            true => vec![
                any(|tag| tag == STATE),
                any(|tag| tag == GENESIS),
                any(|tag| tag == ENTRY),
            ],
            false => vec![any(is_item)],
        }
    }

    fn entry_row(&self) -> Vec<Slot> {
        let parameters = any(|tag| tag == PARAMETER);
        let statements = any(is_statement);
        let name = one(|tag| tag == NAME);
        match self.misreading {
            Some(ClausesAmongStatements) => vec![
                name,
                parameters,
                any(|tag| is_clause(tag) || is_statement(tag)),
            ],
            Some(ParametersAmongClauses) => vec![
                name,
                any(|tag| is_clause(tag) || tag == PARAMETER),
                statements,
            ],
            Some(LimitsBeforeDenials) => {
                vec![
                    name,
                    parameters,
                    any(|tag| tag == LIMITS),
                    any(|tag| tag == DENIES),
                    statements,
                ]
            }
            Some(ParametersBeforeName) => vec![parameters, name, any(is_clause), statements],
            _ => vec![name, parameters, any(is_clause), statements],
        }
    }

    fn type_slot(&self) -> Slot {
        match self.misreads(TypeNameOptional) {
            true => at_most_one(|tag| tag == TYPE_NAME),
            false => one(|tag| tag == TYPE_NAME),
        }
    }

    /// Question 7.
    fn state_name_question(&self, fields: &[Field<'_>]) -> Result<(), Refusal> {
        if self.misreads(StateNamesMayRepeat) {
            return Ok(());
        }
        let states: Vec<_> = fields
            .iter()
            .filter(|field| self.has_unique_name(field.tag))
            .collect();
        let name = |index: usize| states[index].text_part(NAME);
        let earlier = |later: usize| (0..later).find(|&index| name(index) == name(later));
        let repeats = |later: &usize| match self.misreads(NeighbourNamesOnly) {
            true => *later > 0 && name(*later - 1) == name(*later),
            false => earlier(*later).is_some(),
        };
        let repeated: Vec<usize> = (0..states.len()).filter(repeats).collect();
        let found = self.reading(LastRepeatedName, repeated.last(), repeated.first());
        let Some(&later) = found else {
            return Ok(());
        };
        let place = match self.misreading {
            Some(RepeatedNamePlaceOfEarlier) => {
                earlier(later).map_or(0, |first| states[first].place)
            }
            Some(RepeatedNamePlaceOfName) => states[later].place + 3,
            _ => states[later].place,
        };
        Err(Refusal::new(7, place))
    }

    fn has_unique_name(&self, tag: u8) -> bool {
        tag == STATE || (tag == ENTRY && self.misreads(EntryNamesDiffer))
    }

    /// Question 8.
    fn entry_count_question(&self, fields: &[Field<'_>]) -> Result<(), Refusal> {
        let limit = match self.misreading {
            Some(EntryLimitOneLess) => 63,
            Some(EntryLimitOneMore) => 65,
            _ => 64,
        };
        let counts =
            |field: &&Field<'_>| field.tag == ENTRY || self.misreads(AllItemsCountAsEntries);
        let surplus: Vec<_> = fields.iter().filter(counts).skip(limit).collect();
        let refused = self.reading(EntryLimitPlaceOfLast, surplus.last(), surplus.first());
        refused.map_or(Ok(()), |field| Err(Refusal::new(8, field.place)))
    }
}

pub fn refuse_if(condition: bool, number: u8, place: usize) -> Result<(), Refusal> {
    match condition {
        true => Err(Refusal::new(number, place)),
        false => Ok(()),
    }
}
