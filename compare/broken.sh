#!/bin/bash
# Tries the comparison on broken copies: in each, one mistake is put into a
# copy of plain Rust, which is then compared with the true one. The comparison
# must fail on every copy (and pass on the unchanged one).
#
#   compare/broken.sh [COUNT]      comparisons for each copy, 180000 unless given;
#                                  0 only looks whether each mistake still has its place (the gate does)
set -euo pipefail

here=$(cd "$(dirname "$0")" && pwd)
count=${1:-180000}
out=$(mktemp -d)
trap 'rm -rf "$out"' EXIT

if [ "$count" != 0 ]; then
    "$here/build.sh" selftest "$out"
    "$out/compare" "$count" | tail -n 1
fi

source=$(<"$here/plain/src/lib.rs")
source=${source/"#[cfg(test)]
mod tests;"/}
broken=0
missed=0

# mistake NAME OLD NEW [OLD NEW ...]: the first of each OLD in the source becomes its NEW.
mistake() {
    local name=$1 changed=$source before
    shift
    while [ $# -gt 0 ]; do
        before=$changed
        changed=${changed/"$1"/"$2"}
        if [ "$changed" = "$before" ]; then
            echo "no such text: $name"
            missed=$((missed + 1))
            return
        fi
        shift 2
    done
    broken=$((broken + 1))
    [ "$count" != 0 ] || return 0
    printf '%s\n' "$changed" >"$out/lib.rs"
    "${RUSTC:-rustc}" --edition 2021 -O -A warnings --crate-type rlib --crate-name subject \
        "$out/lib.rs" -o "$out/libsubject.rlib"
    "${RUSTC:-rustc}" --edition 2021 -C opt-level=1 --cfg selftest --crate-name compare "$here/src/main.rs" \
        --extern "plain=$out/libplain.rlib" --extern "subject=$out/libsubject.rlib" -o "$out/compare"
    if "$out/compare" "$count" >"$out/said" || ! tail -n 1 "$out/said" | grep -q 'compared, [1-9]'; then
        echo "MISSED: $name"
        missed=$((missed + 1))
    else
        printf '%-58s %s\n' "$name" "$(tail -n 1 "$out/said")"
    fi
}

# Numbers and forms.
mistake 'whole part capped too low' '.min(1_000)' '.min(999)'
mistake 'whole part wraps' 'value = (value * 10 + u32::from(digit - b'\''0'\'')).min(1_000);' \
    'value = value.wrapping_mul(10).wrapping_add(u32::from(digit - b'\''0'\'')) & 0xFFF_FFFF;'
mistake 'seventh decimal dropped' 'let number = match PLACES.get(decimals)' \
    'let decimals = decimals.min(6); let number = match PLACES.get(decimals)'
mistake 'largest number refused' 'value * place <= MAX as u32' 'value * place < MAX as u32'
mistake 'a point without digits' 'if digits == 0 {' 'if digits == 0 && rest.len() == text.len() {'
mistake 'sign of -0.5 lost' 'if negative {' 'if negative && size.millionths >= 1_000_000 {'
mistake 'plus sign refused' "[b'+', rest @ ..] => (false, rest)" "[b'+', ..] => return None"
mistake 'range before form' '_ => Err(refuse::FORM),
    }
}

/// `X#Y#A#`' 'Some((None, _, _)) => Err(refuse::RANGE),
        _ => Err(refuse::FORM),
    }
}

/// `X#Y#A#`'
mistake 'radius of zero' 'size.filter(|size| size.millionths >= 1)' 'size'
mistake 'sign before a radius' 'match magnitude(text) {
        Some((size, [])) => Ok' 'match magnitude(text.strip_prefix(b"+").unwrap_or(text)) {
        Some((size, [])) => Ok'
mistake 'T0 is no form' 'let tool = value(ones);
            need(tool >= 1, refuse::RANGE)?;' 'let tool = value(ones);
            need(tool >= 1, refuse::FORM)?;'
mistake 'T00 selected' 'need(tool >= 1, refuse::RANGE)?;
            Ok(Command::Select { tool })
        }
        [tens @ b'\''0'\''..=b'\''9'\'', ones @ b'\''0'\''..=b'\''9'\'', b'\''C'\''' 'Ok(Command::Select { tool: tool.max(1) })
        }
        [tens @ b'\''0'\''..=b'\''9'\'', ones @ b'\''0'\''..=b'\''9'\'', b'\''C'\'''
mistake 'one digit declared by 2021' ' if revision == Revision::Rev2019 => {' ' => {'
mistake 'one digit not declared by 2019' ' if revision == Revision::Rev2019 => {' ' if false => {'
mistake 'T0C1 is no form by 2019' 'declaration(value(ones), rest)' \
    '{ need(ones != b'\''0'\'', refuse::FORM)?; declaration(value(ones), rest) }'
mistake 'T0C is out of range by 2019' 'declaration(value(ones), rest)' \
    '{ need(ones != b'\''0'\'', refuse::RANGE)?; declaration(value(ones), rest) }'
mistake 'revision asked in a selection' '[ones @ b'\''0'\''..=b'\''9'\''] => {' \
    '[ones @ b'\''0'\''..=b'\''9'\''] if revision == Revision::Rev2019 => {'
mistake 'read by 2021 alone' 'Command::of_line(text, revision).map_err(|number|' 'Command::of_line(text, Revision::Rev2021).map_err(|number|'
mistake 'edit by 2021 alone' 'Command::of_line(text, revision).map_err(|number| refused_text(number, at, text))' \
    'Command::of_line(text, Revision::Rev2021).map_err(|number| refused_text(number, at, text))'
mistake 'edit by 2019 alone' 'Command::of_line(text, revision).map_err(|number| refused_text(number, at, text))' \
    'Command::of_line(text, Revision::Rev2019).map_err(|number| refused_text(number, at, text))'
mistake 'second semicolon read' ' if !rest.contains(&b'\'';'\'') =>' ' =>'
mistake 'lower-case M48' 'b"M48" => Ok(Command::Start),' 'b"M48" | b"m48" => Ok(Command::Start),'
mistake 'METRIC as INCH' 'b"METRIC" => Ok(Command::Metric)' 'b"METRIC" => Ok(Command::Inch)'

# Lines.
mistake 'line of 256 refused' 'line.len() <= MAX_LINE' 'line.len() < MAX_LINE'
mistake 'line of 257 read' 'line.len() <= MAX_LINE' 'line.len() <= MAX_LINE + 1'
mistake 'bytes before length' 'need(line.len() <= MAX_LINE, refuse::LINE_SIZE)?;
        need(line.iter().all(is_allowed), refuse::BYTE)?;' \
    'need(line.iter().all(is_allowed), refuse::BYTE)?;
        need(line.len() <= MAX_LINE, refuse::LINE_SIZE)?;'
mistake 'byte 127 read' '(32..=126)' '(32..=127)'
mistake 'byte 31 read' '(32..=126)' '(31..=126)'
mistake 'every CR taken off' 'text.strip_suffix(b"\r").unwrap_or(text)' \
    '{ let mut text = text; while let Some(cut) = text.strip_suffix(b"\r") { text = cut; } text }'
mistake 'CR refused' 'text.strip_suffix(b"\r").unwrap_or(text)' 'text'
mistake 'last line needs no LF' '.ok_or(refused(refuse::NOT_ENDED, line))?' '.unwrap_or(rest.len() - 1)'
mistake 'file of 65,536 refused' 'file.len() <= MAX_FILE' 'file.len() < MAX_FILE'
mistake 'file of 65,537 read' 'file.len() <= MAX_FILE' 'file.len() <= MAX_FILE + 1'
mistake 'line 1,000 refused' 'line as usize <= MAX_LINES' '(line as usize) < MAX_LINES'
mistake 'line 1,001 read' 'line as usize <= MAX_LINES' '(line as usize) <= MAX_LINES + 1'
mistake 'too many lines known only at the LF' 'need(line as usize <= MAX_LINES, refused(refuse::LINE_COUNT, line))?;
        let end =
            rest.iter().position(|&byte| byte == b'\''\n'\'').ok_or(refused(refuse::NOT_ENDED, line))?;' \
    'let end = rest.iter().position(|&byte| byte == b'\''\n'\'').ok_or(refused(refuse::NOT_ENDED, line))?;
        need(line as usize <= MAX_LINES, refused(refuse::LINE_COUNT, line))?;'
mistake '14 at the last line' '(refuse::UNFINISHED, line + 1)' '(refuse::UNFINISHED, line)'
mistake 'end not asked for' 'need(state.phase == phase::ENDED, refused(refuse::UNFINISHED, line + 1))?;' ''
mistake 'short table found out first' 'let rows = rows_of(file, revision, &mut made)?;' \
    'need(!table.is_empty(), refused(refuse::TOO_SHORT, 0))?; let rows = rows_of(file, revision, &mut made)?;'
mistake 'rows written before the table is found short' 'let lent = table.get_mut(..rows.len())' \
    'if let (Some(first), false) = (table.first_mut(), rows.is_empty()) { *first = rows[0]; }
    let lent = table.get_mut(..rows.len())'
mistake 'table cleared beyond the rows' 'lent.copy_from_slice(&rows);' \
    'lent.copy_from_slice(&rows); if let Some(next) = table.get_mut(rows.len()) { *next = 0; }'

# Columns.
mistake 'column one too far' 'index as u32 + 1' 'index as u32 + 2'
mistake 'column counted from 0' 'index as u32 + 1' 'index as u32'
mistake 'column in eight bits' 'index as u32 + 1' 'u32::from((index as u8).wrapping_add(1))'
mistake 'last forbidden byte for the first' 'text.iter().position(|byte| !is_allowed(byte))' \
    'text.iter().rposition(|byte| !is_allowed(byte))'
mistake 'rightmost number for the leftmost' '(1..text.len()).find(' '(1..text.len()).rev().find('
mistake 'digit after the sign' 'refuse::RANGE => out_of_range(text),' \
    'refuse::RANGE => out_of_range(text).map(|at| at + usize::from(matches!(text[at], b'\''-'\'' | b'\''+'\''))),'
mistake "letter's column for the number's" 'refuse::RANGE => out_of_range(text),' \
    'refuse::RANGE => out_of_range(text).map(|at| at - 1),'
mistake "tool's column 1" 'refuse::RANGE => out_of_range(text),' \
    'refuse::RANGE => out_of_range(text).map(|at| if text[at - 1] == b'\''T'\'' { 0 } else { at }),'
mistake 'a column for 5' 'refuse::RANGE => out_of_range(text),' \
    'refuse::RANGE => out_of_range(text), refuse::FORM => Some(text.len()),'
mistake 'a column for 6' 'refuse::RANGE => out_of_range(text),' \
    'refuse::RANGE => out_of_range(text), refuse::LINE_SIZE => Some(MAX_LINE - 1),'
mistake 'a column for 17' 'refused(refuse::LINE_END, 0)' '(refuse::LINE_END, 0, 1)'
mistake 'a column for 18' '.ok_or(refused(refuse::TABLE, line as u32))' '.ok_or((refuse::TABLE, line as u32, 1))'
mistake 'column of a reading left 0' 'refused_text(number, line, text)' 'refused(number, line)'
mistake 'column of an edit left 0' 'refused_text(number, at, text)' 'refused(number, at)'
mistake 'column counted from the start of the file' 'refused_text(number, line, text)' '{
            let (number, line, column) = refused_text(number, line, text);
            (number, line, if column == 0 { 0 } else { column + (file.len() - rest.len()) as u32 })
        }'

# The state.
mistake 'comment after the end' 'Command::Comment => need(self.phase != phase::ENDED, refuse::PHASE)?,' 'Command::Comment => {}'
mistake 'second M48' 'next.go_on(phase::BEFORE, phase::NO_UNIT)?' \
    'next.go_on(self.phase.min(phase::NO_UNIT), phase::NO_UNIT)?'
mistake 'unit twice' 'self.go_on(phase::NO_UNIT, phase::HEADER)?;' \
    'self.go_on(self.phase.clamp(phase::NO_UNIT, phase::HEADER), phase::HEADER)?;'
mistake 'declaration in the body' 'need(self.phase == phase::HEADER, refuse::PHASE)?;
        need(!self.has(tool)' 'need(self.phase == phase::HEADER || self.phase == phase::BODY, refuse::PHASE)?;
        need(!self.has(tool)'
mistake 'tool declared twice' 'need(!self.has(tool), refuse::DECLARED)?;' ''
mistake 'declared set forgotten' 'self.declared[(tool / WORD_BITS) as usize] |= 1 <<' 'self.declared[(tool / WORD_BITS) as usize] = 1 <<'
mistake 'words of 30 bits' 'const WORD_BITS: i32 = 25;' 'const WORD_BITS: i32 = 30;'
mistake 'G05 keeps the point' 'next.enter(motion::DRILL, 0, 0)?' 'next.enter(motion::DRILL, self.x, self.y)?'
mistake 'G05 with the tool down' 'self.need_body(self.motion != motion::DOWN)?;
        self.motion = motion;' 'self.need_body(motion == motion::DRILL || self.motion != motion::DOWN)?;
        self.motion = motion;'
mistake 'hit moves the point' 'Command::Hit { .. } => next.need_tool(motion::DRILL)?,' 'Command::Hit { x, y } => {
                next.need_tool(motion::DRILL)?;
                (next.x, next.y) = (x, y);
            }'
mistake 'hit in rout mode' 'next.need_tool(motion::DRILL)?' \
    'next.need_tool(if self.motion == motion::UP { motion::UP } else { motion::DRILL })?'
mistake 'hit without tool' 'next.need_tool(motion::DRILL)?' 'next.need_body(self.motion == motion::DRILL)?'
mistake 'M15 without tool' 'self.need_tool(motion::UP)?;' 'self.need_body(self.motion == motion::UP)?;'
mistake 'tool asked for before the motion' 'self.need_body(self.motion == motion)?;
        need(self.tool != 0, refuse::NO_TOOL)' 'need(self.phase != phase::BODY || self.tool != 0, refuse::NO_TOOL)?;
        self.need_body(self.motion == motion)'
mistake 'undeclared tool before the motion' 'self.need_body(self.motion != motion::DOWN)?;
        need(self.has(tool), refuse::NOT_DECLARED)?;' 'need(self.phase != phase::BODY || self.has(tool), refuse::NOT_DECLARED)?;
        self.need_body(self.motion != motion::DOWN)?;'
mistake 'motion before the phase' 'need(self.phase == phase::BODY, refuse::PHASE)?;
        need(motion_fits, refuse::MOTION)' 'need(motion_fits, refuse::MOTION)?;
        need(self.phase == phase::BODY, refuse::PHASE)'
mistake 'G01 with the tool up' 'self.need_body(self.motion == motion::DOWN)?;
        (self.x, self.y) = (x, y);' 'self.need_body(self.motion >= motion::UP)?;
        (self.x, self.y) = (x, y);'
mistake 'G01 asks for a tool' 'self.need_body(self.motion == motion::DOWN)?;
        (self.x, self.y) = (x, y);' 'self.need_tool(motion::DOWN)?;
        (self.x, self.y) = (x, y);'
mistake 'arc to its start' 'apart != 0 && apart <=' 'apart <='
mistake 'the limit itself refused' 'apart <= reach * reach' 'apart < reach * reach'
mistake 'arc in 32 bits' 'apart != 0 && apart <= reach * reach' \
    'apart != 0 && apart as i32 <= (reach * reach) as i32'
mistake 'arc in single precision' 'apart <= reach * reach' '((apart as f32).sqrt() <= reach as f32)'
mistake 'arc in double precision' 'apart <= reach * reach' '((apart as f64).sqrt() <= reach as f64)'
mistake 'arc leaves the point' 'need(self.can_arc(x, y, radius, decimals), refuse::ARC)?;
        (self.x, self.y) = (x, y);' 'need(self.can_arc(x, y, radius, decimals), refuse::ARC)?;'
mistake 'M30 with the tool down' 'self.need_body(self.motion != motion::DOWN)?;
        self.phase = phase::ENDED;' 'self.need_body(true)?;
        self.phase = phase::ENDED;'
mistake 'M30 clears the motion' 'self.phase = phase::ENDED;' 'self.phase = phase::ENDED; self.motion = motion::NONE;'

# The row's test.
mistake 'phase not tested' '(phase::BEFORE..=phase::ENDED).contains(&phase)' 'true'
mistake 'unit not tested' '(unit::NONE..=unit::INCH).contains(&unit)' 'true'
mistake 'motion not tested' '(motion::NONE..=motion::DOWN).contains(&motion)' 'true'
mistake 'tool 100 in range' '(0..=MAX_TOOL).contains(&tool)' '(0..=100).contains(&tool)'
mistake 'point x not tested' '&& (MIN..=MAX).contains(&x)' ''
mistake 'point y of one more' '&& (MIN..=MAX).contains(&y)' '&& (MIN..=MAX + 1).contains(&y)'
mistake 'word of one more' '(0..=MAX_WORD).contains(word)' '(0..=MAX_WORD + 1).contains(word)'
mistake 'negative word' '(0..=MAX_WORD).contains(word)' '(*word <= MAX_WORD)'
mistake "tool 0's bit let in" '&& a & 1 == 0' ''
mistake "tool 0's bit in every word" '&& a & 1 == 0' '&& (a | b | c | d) & 1 == 0'
mistake 'selected tool must be declared' 'let command = Command::of_numbers' \
    'if tool != 0 && !(State { declared: [a, b, c, d], ..State::default() }).has(tool) { return None; }
    let command = Command::of_numbers'
mistake 'G05 with a radius' '[6, 0, 0, 0, 0, 0]' '[6, 0, 0, 0, _, 0]'
mistake 'M30 with an x' '[15, 0, 0, 0, 0, 0]' '[15, 0, _, 0, 0, 0]'
mistake 'hit with a tool' '[9, 0, x' '[9, _, x'
mistake 'declaration of zero' 'diameter @ 1..=MAX' 'diameter @ 0..=MAX'
mistake 'selection of tool 0' '[8, tool @ 1..=MAX_TOOL' '[8, tool @ 0..=MAX_TOOL'
mistake 'radius of one more' '[14, 0, x @ MIN..=MAX, y @ MIN..=MAX, radius @ 1..=MAX, decimals]' \
    '[14, 0, x @ MIN..=MAX, y @ MIN..=MAX, radius @ 1..=1_000_000_000, decimals]'

# Half circles: how far an arc reaches.
mistake 'two decimals counted as two' 'decimals.max(3)' 'decimals.max(2)'
mistake 'one decimal counted as one' 'decimals.max(3)' 'if decimals == 2 { 3 } else { decimals.max(1) }'
mistake 'no decimals counted as none' 'decimals.max(3)' 'if decimals == 0 { 0 } else { decimals.max(3) }'
mistake 'fewer than four decimals counted as four' 'decimals.max(3)' 'decimals.max(4)'
mistake 'four decimals counted as three' 'decimals.max(3)' 'if decimals == 4 { 3 } else { decimals.max(3) }'
mistake 'five decimals counted as six' 'decimals.max(3)' 'if decimals == 5 { 6 } else { decimals.max(3) }'
mistake 'always a thousandth' 'PLACES[decimals.max(3) as usize]' 'PLACES[3]'
mistake 'always a millionth' 'PLACES[decimals.max(3) as usize]' 'PLACES[6]'
mistake 'nothing added' ' + i64::from(PLACES[decimals.max(3) as usize])' ''
mistake 'nothing added for six decimals' 'i64::from(PLACES[decimals.max(3) as usize])' \
    'if decimals == 6 { 0 } else { i64::from(PLACES[decimals.max(3) as usize]) }'
mistake 'half a unit added' 'i64::from(PLACES[decimals.max(3) as usize])' 'i64::from(PLACES[decimals.max(3) as usize] / 2)'
mistake 'the unit added to the radius' 'i64::from(PLACES[decimals.max(3) as usize])' '2 * i64::from(PLACES[decimals.max(3) as usize])'
mistake 'the unit taken away' ' + i64::from(PLACES' ' - i64::from(PLACES'
mistake 'the squares added' 'let reach = 2 * i64::from(radius) + i64::from(PLACES[decimals.max(3) as usize]);
        apart != 0 && apart <= reach * reach' 'let (reach, u) = (2 * i64::from(radius), i64::from(PLACES[decimals.max(3) as usize]));
        apart != 0 && apart <= reach * reach + u * u'
mistake 'the square of the unit forgotten' 'let reach = 2 * i64::from(radius) + i64::from(PLACES[decimals.max(3) as usize]);
        apart != 0 && apart <= reach * reach' 'let (reach, u) = (2 * i64::from(radius), i64::from(PLACES[decimals.max(3) as usize]));
        apart != 0 && apart <= reach * reach + 2 * reach * u'
mistake 'a smallest arc taken for a point' 'apart != 0 && apart <=' 'apart > 1 && apart <='
mistake 'later arcs of a span by six decimals' 'let (command, old_here) = row_at(rows, meeting)?;' \
    'let (command, old_here) = row_at(rows, meeting)?;
        let command = match command {
            Command::Counter { x, y, radius, .. } => Command::Counter { x, y, radius, decimals: 6 },
            other => other,
        };'
mistake 'arcs followed by six decimals in writing' 'need(state.after(command) == Ok(after)' 'let strict = match command {
            Command::Clockwise { x, y, radius, .. } => Command::Clockwise { x, y, radius, decimals: 6 },
            other => other,
        };
        need(state.after(strict) == Ok(after)'

# Half circles: the decimals in a row and in its test.
mistake 'trailing zeros not counted' 'decimals: decimals as i32 }' \
    'decimals: (0..decimals as i32).rev().find(|&at| value / 10_u32.pow(decimals as u32 - 1 - at as u32) % 10 != 0).map_or(0, |at| at + 1) }'
mistake 'at least three decimals kept' 'decimals: decimals as i32 }' 'decimals: decimals.max(3) as i32 }'
mistake 'a bare point counted' 'decimals: decimals as i32 }' \
    'decimals: (decimals as i32).max(i32::from(text[..text.len() - rest.len()].contains(&b'\''.'\''))) }'
mistake 'all digits counted' 'decimals: decimals as i32 }' 'decimals: digits.min(6) as i32 }'
mistake 'decimals of clockwise arcs lost' '=> [13, 0, x, y, radius, decimals]' '=> [13, 0, x, y, radius, decimals * 0]'
mistake "a diameter's decimals kept" '[4, tool, 0, 0, diameter, 0]' '[4, tool, 0, 0, diameter, 1]'
mistake 'decimals before the state' 'const STATE: Range<usize> = 5..15;' 'const STATE: Range<usize> = 6..16;' \
    'size, ref state @ .., decimals]' 'size, decimals, ref state @ ..]' \
    '[kind, tool, x, y, size, phase, unit, motion, selected, point_x, point_y, a, b, c, d, decimals]' \
    '[kind, tool, x, y, size, decimals, phase, unit, motion, selected, point_x, point_y, a, b, c, d]'
mistake 'decimals compared in the meeting' 'while state != old && meeting < n' \
    'let same = rows[line * ROW - 1] == command.numbers()[5];
    while (state != old || meeting == line && !same) && meeting < n'
mistake "old row's decimals kept by an edit" 'changed[..ROW].copy_from_slice(&encode(command, &span[0]));' \
    'changed[..ROW - 1].copy_from_slice(&encode(command, &span[0])[..ROW - 1]);'
mistake 'later rows of a span lose their decimals' 'row[STATE].copy_from_slice(&state.numbers());' \
    'row[STATE].copy_from_slice(&state.numbers()); if state != &span[0] { row[ROW - 1] = 0; }'
mistake 'decimals not compared with the radius' 'Some(place) => radius as u32 % place == 0,' 'Some(_) => true,'
mistake 'decimals compared with thousandths at least' 'Some(place) => radius as u32 % place == 0,' \
    'Some(&place) => radius as u32 % place.min(1_000) == 0,'
mistake 'decimals must be needed' 'Some(place) => radius as u32 % place == 0,' \
    'Some(&place) => radius as u32 % place == 0 && (place == UNIT || radius as u32 % (place * 10) != 0),'
mistake 'decimals of clockwise arcs not compared' 'if is_written_with(decimals, radius) =>' 'if (0..=6).contains(&decimals) =>'
mistake '7 decimals let through' 'match PLACES.get(decimals as usize)' \
    'match PLACES.get(if decimals == 7 { 6 } else { decimals as usize })' \
    'PLACES[decimals.max(3) as usize]' 'PLACES[decimals.clamp(3, 6) as usize]' \
    'PLACES[1..=decimals as usize]' 'PLACES[1..=decimals.min(6) as usize]'
mistake '-1 decimals let through' 'match PLACES.get(decimals as usize)' \
    'match PLACES.get(if decimals == -1 { 0 } else { decimals as usize })' \
    'PLACES[1..=decimals as usize]' 'PLACES[1..=decimals.max(0) as usize]'
mistake 'decimals in eight bits' 'match PLACES.get(decimals as usize)' 'match PLACES.get(decimals as u8 as usize)' \
    'PLACES[decimals.max(3) as usize]' 'PLACES[(decimals as u8).max(3) as usize]' \
    'PLACES[1..=decimals as usize]' 'PLACES[1..=decimals as u8 as usize]'
mistake '6 decimals refused' 'match PLACES.get(decimals as usize)' 'match PLACES[..6].get(decimals as usize)'
for command in '0, 0, 0, 0, 0, 0] => Command::Comment' '1, 0, 0, 0, 0, 0] => Command::Start' \
    '2, 0, 0, 0, 0, 0] => Command::Metric' '3, 0, 0, 0, 0, 0] => Command::Inch' \
    '4, tool @ 1..=MAX_TOOL, 0, 0, diameter @ 1..=MAX, 0] => {' '5, 0, 0, 0, 0, 0] => Command::EndHeader' \
    '6, 0, 0, 0, 0, 0] => Command::Drill' '7, 0, x @ MIN..=MAX, y @ MIN..=MAX, 0, 0] => Command::Move' \
    '8, tool @ 1..=MAX_TOOL, 0, 0, 0, 0] => Command::Select' '9, 0, x @ MIN..=MAX, y @ MIN..=MAX, 0, 0] => Command::Hit' \
    '10, 0, 0, 0, 0, 0] => Command::Down' '11, 0, 0, 0, 0, 0] => Command::Up' \
    '12, 0, x @ MIN..=MAX, y @ MIN..=MAX, 0, 0] => Command::Line' '15, 0, 0, 0, 0, 0] => Command::End,'; do
    mistake "decimals let through for kind ${command%%,*}" "[$command" "[${command/, 0] =>/, _] =>}"
done

# Half circles: the radius written.
mistake 'radius written without trailing zeros' 'put_radius(out, radius, decimals);' "put_number(out, b'A', radius);"
mistake 'radius written with three decimals at least' 'PLACES[1..=decimals as usize]' 'PLACES[1..=decimals.max(3) as usize]' \
    'if decimals > 0 {' 'if true {'
mistake 'radius written with all decimals' 'PLACES[1..=decimals as usize]' 'PLACES[1..]' 'if decimals > 0 {' 'if true {'
mistake 'last decimal left out' 'PLACES[1..=decimals as usize]' 'PLACES[1..(decimals as usize).max(1)]'
mistake 'a point written for no decimals' 'if decimals > 0 {' 'if true {'
mistake 'a whole part of 0 left out' 'put_whole(out, radius / UNIT);' 'if radius >= UNIT { put_whole(out, radius / UNIT); }'

# Sizes and line numbers.
mistake 'n of 0' '(1..=MAX_LINES).contains(&n) && numbers' '(0..=MAX_LINES).contains(&n) && numbers'
mistake 'n of 1,001' 'let numbers = n.min(MAX_LINES) * ROW;
    need((1..=MAX_LINES).contains(&n)' 'let numbers = n.min(MAX_LINES + 1) * ROW;
    need((1..=MAX_LINES + 1).contains(&n)'
mistake 'n times sixteen wraps' 'let numbers = n.min(MAX_LINES) * ROW;
    need((1..=MAX_LINES).contains(&n) && numbers <= table.len(), refused(refuse::TABLE, 0))?;
    Ok(numbers)' 'let numbers = n.wrapping_mul(ROW);
    need(n >= 1 && numbers <= table.len(), refused(refuse::TABLE, 0))?;
    need((1..=MAX_LINES).contains(&n), refused(refuse::LINE_NUMBER, 0))?;
    Ok(numbers)'
mistake 'table without a number to spare' 'numbers <= table.len()' 'numbers < table.len()'
mistake 'line cut to 32 bits' 'need((1..=n).contains(&line), refused(refuse::LINE_NUMBER, 0))?;
    let ends_line' 'let line = line as u32 as usize;
    need((1..=n).contains(&line), refused(refuse::LINE_NUMBER, 0))?;
    let ends_line'

# Edits.
mistake 'CR in the new line' "b'\\n' | b'\\r'" "b'\\n'"
mistake '17 after the rows' 'need(!text.iter().any(ends_line), refused(refuse::LINE_END, 0))?;
    edit_rows' 'state_before(rows, line)?;
    need(!text.iter().any(ends_line), refused(refuse::LINE_END, 0))?;
    edit_rows'
mistake '17 before 16' 'need((1..=n).contains(&line), refused(refuse::LINE_NUMBER, 0))?;
    let ends_line = |byte: &u8| matches!(byte, b'\''\n'\'' | b'\''\r'\'');' 'let ends_line = |byte: &u8| matches!(byte, b'\''\n'\'' | b'\''\r'\'');
    need(!text.iter().any(ends_line), refused(refuse::LINE_END, 0))?;
    need((1..=n).contains(&line), refused(refuse::LINE_NUMBER, 0))?;'
mistake 'edited row tested after the new line' 'let (old_command, mut old) = row_at(rows, line)?;
    let at = line as u32;
    let command =
        Command::of_line(text, revision).map_err(|number| refused_text(number, at, text))?;' 'let at = line as u32;
    let command =
        Command::of_line(text, revision).map_err(|number| refused_text(number, at, text))?;
    let (old_command, mut old) = row_at(rows, line)?;'
mistake 'stops at a command of the same kind' 'let mut meeting = line;' \
    'let mut meeting = line; if rows[(line - 1) * ROW] == command.numbers()[0] { old = state; }'
mistake 'stops where the points agree' 'while state != old && meeting < n' \
    'while (state.phase, state.motion, state.x, state.y) != (old.phase, old.motion, old.x, old.y) && meeting < n'
mistake 'unit left out of the agreement' 'while state != old && meeting < n' \
    'while (State { unit: 0, ..state }) != (State { unit: 0, ..old }) && meeting < n'
mistake 'declared set left out of the agreement' 'while state != old && meeting < n' \
    'while (State { declared: [0; 4], ..state }) != (State { declared: [0; 4], ..old }) && meeting < n'
mistake 'last word left out of the agreement' 'while state != old && meeting < n' \
    'while (state.numbers()[..9] != old.numbers()[..9]) && meeting < n'
mistake 'own row only' 'while state != old && meeting < n' 'while false'
mistake 'runs on to the end' 'while state != old && meeting < n' 'while meeting < n'
mistake "row tested after its own refusal" 'let (command, old_here) = row_at(rows, meeting)?;' \
    'let row = &rows[(meeting - 1) * ROW..][..ROW];
        if let Some(command) = Command::of_numbers([row[0], row[1], row[2], row[3], row[4], row[15]]) {
            state.after(command).map_err(|number| refused(number, meeting as u32))?;
        }
        let (command, old_here) = row_at(rows, meeting)?;'
mistake '14 not asked' 'need(agreed || state.phase == phase::ENDED' 'need(agreed || true'
mistake '14 asked though agreed' 'need(agreed || state.phase == phase::ENDED' 'need(meeting < n || state.phase == phase::ENDED'
mistake '14 at n' '(refuse::UNFINISHED, n as u32 + 1)' '(refuse::UNFINISHED, n as u32)'
mistake 'old command kept' 'changed[..ROW].copy_from_slice(&encode(command, &span[0]));' ''
mistake 'last state of the span not written' '.zip(&span) {' '.zip(&span[..span.len() - 1]) {'
mistake 'row before rerun' '_ => Ok(row_at(rows, line - 1)?.1),' \
    '_ => { let (command, after) = row_at(rows, line - 1)?; if line == 2 { if let Ok(again) = State::default().after(command) { return Ok(again); } } Ok(after) }'
mistake 'row before not tested' '_ => Ok(row_at(rows, line - 1)?.1),' \
    '_ => Ok(row_at(rows, line - 1).map(|row| row.1).unwrap_or_default()),'

# Holes.
mistake "hit starts at the row before's point" 'Command::Hit { .. } => (x, y),
        Command::Line' 'Command::Line'
mistake 'rout starts at its own point' '(before.x, before.y)
        }' '(after.x, after.y)
        }'
mistake 'tool of the row before' 'Some([kind, after.tool,' 'Some([kind, before.tool,'
mistake "end is the row's point" 'start_x, start_y, x, y, radius])' 'start_x, start_y, after.x, after.y, radius])'
mistake 'M16 makes a hole' 'Command::Hit { .. } => (x, y),' 'Command::Hit { .. } | Command::Up => (x, y),'
mistake 'short block let pass without a hole' 'let lent = hole.get_mut(..HOLE).ok_or(refused(refuse::TOO_SHORT, 0))?;
    match hole_of(command, &before, &after) {' 'let made = hole_of(command, &before, &after);
    if made.is_none() { return Ok(0); }
    let lent = hole.get_mut(..HOLE).ok_or(refused(refuse::TOO_SHORT, 0))?;
    match made {'
mistake 'short block before the rows' 'let before = state_before(rows, line)?;
    let (command, after)' 'need(hole.len() >= HOLE, refused(refuse::TOO_SHORT, 0))?;
    let before = state_before(rows, line)?;
    let (command, after)'

# Counts: what is counted, for which tool.
mistake 'routs counted as hits' 'let first = if kind == HIT { HITS } else { ROUTS };' 'let first = HITS;'
mistake 'hits counted as routs' 'let first = if kind == HIT { HITS } else { ROUTS };' 'let first = ROUTS;'
mistake 'clockwise arcs counted as hits' 'if kind == HIT { HITS }' 'if kind == HIT || kind == 13 { HITS }'
mistake 'tool 0 counted as tool 1' 'Some([kind, tool @ 1..=MAX_TOOL, ..]) => (kind, tool),' \
    'Some([kind, tool @ 0..=MAX_TOOL, ..]) => (kind, tool.max(1)),'
mistake "tool 0's routs counted as tool 99's hits" 'Some([kind, tool @ 1..=MAX_TOOL, ..]) => (kind, tool),' \
    'Some([kind, tool @ 0..=MAX_TOOL, ..]) if kind != HIT || tool != 0 => (kind, tool),'
mistake "an edit's old hit of tool 0 taken from tool 1" 'gone.add(hole_of(old_command, &before, &old));' \
    'gone.add(hole_of(old_command, &before, &State { tool: old.tool.max(1), ..old }));'
mistake 'last tool not counted' 'Some([kind, tool @ 1..=MAX_TOOL, ..]) => (kind, tool),' \
    'Some([kind, tool @ 1..=98, ..]) => (kind, tool),'
mistake 'tools 50 apart counted together' 'self.numbers[first + tool as usize - 1] += 1;' \
    'self.numbers[first + (tool as usize - 1) % 50] += 1;'

# Counts in reading.
mistake 'reading adds to what stood there' 'lent_counts.copy_from_slice(&made.numbers);' \
    'for (count, made) in lent_counts.iter_mut().zip(&made.numbers) { *count = count.wrapping_add(*made); }'
mistake 'counts of tools without holes not cleared' 'lent_counts.copy_from_slice(&made.numbers);' \
    'for (count, &made) in lent_counts.iter_mut().zip(&made.numbers) { if made > 0 { *count = made; } }'
mistake "last tool's routs not handed out" 'lent_counts.copy_from_slice(&made.numbers);' \
    'lent_counts[..COUNTS - 1].copy_from_slice(&made.numbers[..COUNTS - 1]);'
mistake 'numbers behind the counts cleared' 'lent_counts.copy_from_slice(&made.numbers);' \
    'lent_counts.copy_from_slice(&made.numbers); counts[COUNTS..].fill(0);'
mistake "short block before the file's refusals" 'let rows = rows_of(file, revision, &mut made)?;' \
    'need(counts.len() >= COUNTS, refused(refuse::TOO_SHORT, 0))?; let rows = rows_of(file, revision, &mut made)?;'
mistake 'short block filled as far as it goes' 'let lent_counts = counts.get_mut(..COUNTS).ok_or(refused(refuse::TOO_SHORT, 0))?;' \
    'let room = counts.len().min(COUNTS); let lent_counts = &mut counts[..room];' \
    'lent_counts.copy_from_slice(&made.numbers);' 'lent_counts.copy_from_slice(&made.numbers[..room]);'
mistake 'block of 197 let pass' 'let lent_counts = counts.get_mut(..COUNTS).ok_or(refused(refuse::TOO_SHORT, 0))?;' \
    'let room = if counts.len() == COUNTS - 1 { COUNTS - 1 } else { COUNTS };
    let lent_counts = counts.get_mut(..room).ok_or(refused(refuse::TOO_SHORT, 0))?;' \
    'lent_counts.copy_from_slice(&made.numbers);' 'lent_counts.copy_from_slice(&made.numbers[..room]);'
mistake 'counts handed out though the table is short' 'let lent = table.get_mut(..rows.len())' \
    'if let Some(lent) = counts.get_mut(..COUNTS) { lent.copy_from_slice(&made.numbers); }
    let lent = table.get_mut(..rows.len())'
mistake 'table written though the block is short' 'let lent_counts = counts.get_mut(..COUNTS).ok_or(refused(refuse::TOO_SHORT, 0))?;
    lent.copy_from_slice(&rows);' 'lent.copy_from_slice(&rows);
    let lent_counts = counts.get_mut(..COUNTS).ok_or(refused(refuse::TOO_SHORT, 0))?;'
mistake 'counts cleared by a refused reading' 'let rows = rows_of(file, revision, &mut made)?;' \
    'if let (Some(count), Some(_)) = (counts.first_mut(), file.first()) { *count = 0; }
    let rows = rows_of(file, revision, &mut made)?;'

# Counts in an edit: the holes that go and come.
mistake "new row's tool for the old hole" 'gone.add(hole_of(command, &old, &old_here));' 'gone.add(hole_of(command, &old, &next));'
mistake "old row's tool for the new hole" 'made.add(hole_of(command, &state, &next));' 'made.add(hole_of(command, &state, &old_here));'
mistake 'new command for the old hole' 'gone.add(hole_of(old_command, &before, &old));' 'gone.add(hole_of(command, &before, &old));'
mistake 'old command for the new hole' 'gone.add(hole_of(old_command, &before, &old));
    made.add(hole_of(command, &before, &state));' 'gone.add(hole_of(old_command, &before, &old));
    made.add(hole_of(old_command, &before, &state));'
mistake "edited line's new tool for its old hole" 'gone.add(hole_of(old_command, &before, &old));' \
    'gone.add(hole_of(old_command, &before, &state));'
mistake 'later rows not counted' 'gone.add(hole_of(command, &old, &old_here));
        made.add(hole_of(command, &state, &next));' ''
mistake 'holes that stay left where they are' 'gone.add(hole_of(command, &old, &old_here));
        made.add(hole_of(command, &state, &next));' 'if old_here.tool != next.tool {
            gone.add(hole_of(command, &old, &old_here));
            made.add(hole_of(command, &state, &next));
        }'
mistake "meeting line's hole left where it is" 'gone.add(hole_of(command, &old, &old_here));
        made.add(hole_of(command, &state, &next));' 'if old_here != next {
            gone.add(hole_of(command, &old, &old_here));
            made.add(hole_of(command, &state, &next));
        }'
mistake 'old holes not taken away' '*count = *count - gone + made;' '*count = *count + made;'
mistake 'new holes not added' '*count = *count - gone + made;' '*count = *count - gone;'
mistake 'counts no more than 1,000 afterwards' '*count = *count - gone + made;' '*count = (*count - gone + made).min(MAX_COUNT);'

# Counts in an edit: their refusals.
mistake 'counts tested after adding back' 'need(gone.can_leave(counts), refused(refuse::TABLE, 0))?;' \
    'let with = |(&count, made): (&u32, &u32)| if count > MAX_COUNT { count } else { (count + made).min(MAX_COUNT) };
    let sums: Vec<u32> = counts.iter().zip(&made.numbers).map(with).collect();
    need(gone.can_leave(&sums), refused(refuse::TABLE, 0))?;'
mistake 'counts over 1,000 let pass' '(count <= MAX_COUNT) & (count >= gone)' 'count >= gone'
mistake 'counts over 1,000 let pass for routs' 'counts.iter().zip(&self.numbers).map(fits)' \
    'counts.iter().zip(&self.numbers).enumerate().map(|(at, both)| fits(both) | (at >= ROUTS && both.0 >= both.1))'
mistake 'counts over 1,000 let pass outside the span' '(count <= MAX_COUNT) & (count >= gone)' \
    '(gone == 0) | (count <= MAX_COUNT) & (count >= gone)'
mistake 'counts too small let pass' '(count <= MAX_COUNT) & (count >= gone)' 'count <= MAX_COUNT'
mistake 'counts too small let pass for routs' 'counts.iter().zip(&self.numbers).map(fits)' \
    'counts.iter().zip(&self.numbers).enumerate().map(|(at, both)| fits(both) | (at >= ROUTS && *both.0 <= MAX_COUNT))'
mistake 'a count of 1,000 refused' 'count <= MAX_COUNT' 'count < MAX_COUNT'
mistake 'a count of 1,001 let pass' 'count <= MAX_COUNT' 'count <= MAX_COUNT + 1'
mistake 'a count of just what is taken refused' 'count >= gone)' '(gone == 0 || count > gone))'
mistake 'counts tested without their sign' '(count <= MAX_COUNT)' '(count as i32 <= MAX_COUNT as i32)'
mistake 'last count not tested' 'counts.iter().zip(&self.numbers).map(fits)' 'counts[..COUNTS - 1].iter().zip(&self.numbers).map(fits)'
mistake 'numbers behind the counts tested' 'let counts = counts.get_mut(..COUNTS)' \
    'need(counts.iter().skip(COUNTS).all(|&count| count <= MAX_COUNT), refused(refuse::TABLE, 0))?;
    let counts = counts.get_mut(..COUNTS)'
mistake 'counts over 1,000 afterwards refused' 'need(gone.can_leave(counts), refused(refuse::TABLE, 0))?;' \
    'need(gone.can_leave(counts), refused(refuse::TABLE, 0))?;
    let after = |at: usize| counts[at] - gone.numbers[at] + made.numbers[at];
    need((0..COUNTS).all(|at| after(at) <= MAX_COUNT), refused(refuse::TABLE, 0))?;'
mistake '18 for counts at the edited line' 'need(gone.can_leave(counts), refused(refuse::TABLE, 0))?;' \
    'need(gone.can_leave(counts), refused(refuse::TABLE, at))?;'
mistake '18 for counts before 14' 'need(agreed ||' 'need(counts.len() < COUNTS || gone.can_leave(counts), refused(refuse::TABLE, 0))?;
    need(agreed ||'
mistake '18 for counts before the rows' 'let n = rows.len() / ROW;
    let before' 'need(counts.len() < COUNTS || Counts::default().can_leave(counts), refused(refuse::TABLE, 0))?;
    let n = rows.len() / ROW;
    let before'
mistake "short block before the edit's refusals" 'let n = rows.len() / ROW;
    let before' 'need(counts.len() >= COUNTS, refused(refuse::TOO_SHORT, 0))?;
    let n = rows.len() / ROW;
    let before'
mistake 'short block after 18 for counts' 'let counts = counts.get_mut(..COUNTS)' \
    'need(gone.can_leave(counts), refused(refuse::TABLE, 0))?;
    let counts = counts.get_mut(..COUNTS)'
mistake 'counts written, then refused' 'need(gone.can_leave(counts), refused(refuse::TABLE, 0))?;' \
    'for (count, gone) in counts.iter_mut().zip(&gone.numbers) {
        need(*count <= MAX_COUNT && *count >= *gone, refused(refuse::TABLE, 0))?;
        *count -= gone;
    }' '*count = *count - gone + made;' '*count += made;'
mistake 'row written, then refused for its counts' 'need(gone.can_leave(counts), refused(refuse::TABLE, 0))?;' \
    'rows[(line - 1) * ROW..][..ROW].copy_from_slice(&encode(command, &span[0]));
    need(gone.can_leave(counts), refused(refuse::TABLE, 0))?;'

# The questions for counts.
mistake 'hits told for routs' 'answer(try_count(counts, ROUTS, tool))' 'answer(try_count(counts, HITS, tool))'
mistake 'tool 99 not asked for' '&tool), refused(refuse::RANGE, 0))?;' '&tool) && tool != 99, refused(refuse::RANGE, 0))?;'
mistake 'tool 100 asked for' '&tool), refused(refuse::RANGE, 0))?;' '&tool) || tool == 100, refused(refuse::RANGE, 0))?;' \
    'lent[first + tool as usize - 1]' 'lent[(first + tool as usize - 1) % COUNTS]'
mistake 'tool asked for in eight bits' 'need((1..=MAX_TOOL as u32).contains(&tool), refused(refuse::RANGE, 0))?;
    let lent' 'let tool = u32::from(tool as u8);
    need((1..=MAX_TOOL as u32).contains(&tool), refused(refuse::RANGE, 0))?;
    let lent'
mistake 'a column for 7 of a question' '&tool), refused(refuse::RANGE, 0))?;' '&tool), (refuse::RANGE, 0, 1))?;'
mistake 'short block before the tool' 'need((1..=MAX_TOOL as u32).contains(&tool), refused(refuse::RANGE, 0))?;
    let lent' 'need(counts.len() >= COUNTS, refused(refuse::TOO_SHORT, 0))?;
    need((1..=MAX_TOOL as u32).contains(&tool), refused(refuse::RANGE, 0))?;
    let lent'
mistake 'short block asked as far as it goes' 'let lent = counts.get(..COUNTS).ok_or(refused(refuse::TOO_SHORT, 0))?;' \
    'let lent = counts; need(first + (tool as usize) <= lent.len(), refused(refuse::TOO_SHORT, 0))?;'
mistake 'block without a number to spare' 'counts.get(..COUNTS).ok_or' 'counts.get(..COUNTS + 1).ok_or'
mistake 'counts over 1,000 refused in the question' 'Ok(lent[first + tool as usize - 1])' \
    'Some(lent[first + tool as usize - 1]).filter(|&count| count <= MAX_COUNT).ok_or(refused(refuse::TABLE, 0))'
mistake 'count told in 16 bits' 'Ok(lent[first + tool as usize - 1])' 'Ok(lent[first + tool as usize - 1] & 0xFFFF)'

# Writing.
mistake 'comments written' 'Command::Comment => return,' "Command::Comment => out.push(b';'),"
mistake 'states not followed' 'need(state.after(command) == Ok(after), refused(refuse::TABLE, line as u32))?;' ''
mistake 'refused command written' 'need(state.after(command) == Ok(after)' 'need(state.after(command).map_or(true, |next| next == after)'
mistake 'end not asked for in writing' 'need(state.phase == phase::ENDED, refused(refuse::TABLE, n as u32))?;' ''
mistake 'text without a byte to spare' 'let lent = text.get_mut(..out.len())' \
    'need(text.len() > out.len(), refused(refuse::TOO_SHORT, 0))?; let lent = text.get_mut(..out.len())'
mistake 'short text written in part' 'let lent = text.get_mut(..out.len())' \
    'if let (Some(first), Some(&byte)) = (text.first_mut(), out.first()) { *first = byte; }
    let lent = text.get_mut(..out.len())'
mistake '100 without its hundreds' 'if whole >= 100 {' 'if whole > 100 {'
mistake '10 without its tens' 'if whole >= 10 {' 'if whole > 10 {'
mistake 'minus of a fraction lost' 'if value < 0 {
        out.push' 'if value <= -(UNIT as i32) {
        out.push'
mistake 'tool of one digit' "out.extend_from_slice(&[b'T', b'0' + tool / 10, b'0' + tool % 10]);" \
    "out.push(b'T'); if tool >= 10 { out.push(b'0' + tool / 10); } out.push(b'0' + tool % 10);"
mistake 'a point after whole numbers' 'if fraction > 0 {
        out.push' 'if fraction > 0 || size > 900 * UNIT {
        out.push'

echo "$broken broken copies, $missed missed"
[ "$missed" = 0 ]
