'use strict';
// The answer in one line, with what its reason means, what the capture says of itself, and what to ask next.

// What stands on the page: a capture, the terms that it was judged with, its first break, and what was asked of it with these terms. asked: the
// terms that are asked with now.
const session = { capture: null, terms: null, asked: null, record: null, answers: new Map() };

const REASONS = JSON.parse(element('reasons').textContent);
// So many bytes of an answer's beginning and end are looked at for a line.
const LINE = 200;

// judge(capture, terms): asks, and shows the answer. What stands goes on standing until it has come.
async function judge(capture, terms) {
    cancel();
    close_message();
    session.asked = terms;
    element('next').setAttribute('aria-busy', 'true');
    const words = words_of('check', terms, capture), is_new = capture !== session.capture;
    const answers = is_new ? new Map() : session.answers;
    try {
        if (!await takes_stretch(terms)) return;
        const said = await answer_of(answers, words, terms, capture);
        if (said.status > 1) {
            answers.delete(words.join('\0'));
            tell_refusal(said, words);
            return;
        }
        Object.assign(session, { capture, terms, answers });
        forget_other_terms();
        show_verdict(said, words);
        if (is_new) element('answer').scrollIntoView({ block: 'nearest' });
        await follow_up(said.status);
    } catch (fault) {
        if (session.terms === terms) show_no_answer(fault);
        tell_fault(fault, capture.name);
    } finally {
        if (session.asked === terms) element('next').setAttribute('aria-busy', 'false');
    }
}

function answer_of(answers, words, terms, capture, is_next = false) {
    const key = words.join('\0');
    if (!answers.has(key)) {
        const said = ask(words, files_of(terms, capture), is_next);
        answers.set(key, said);
        said.catch(() => answers.delete(key));
    }
    return answers.get(key);
}

// The answer of what stands to one of its views.
function answer_to(view, is_next = false, terms = session.terms) {
    return answer_of(session.answers, words_of(view, terms, session.capture), terms, session.capture, is_next);
}

const whole = terms => ({ ...terms, from: '', to: '' });

// Answers are kept until the terms change.
function forget_other_terms() {
    const { terms, capture, answers } = session;
    const now = Object.keys(TAKES).flatMap(view => [terms, whole(terms)].map(it => words_of(view, it, capture).join('\0')));
    for (const key of answers.keys()) if (!now.includes(key)) answers.delete(key);
}

function show_verdict(said, words) {
    const no = /^no at record (\d+): ((\w\d) .*)$/m.exec(text_of(said.out.slice(0, LINE)).split('\n')[0]);
    const { capture } = session, reason = no && REASONS[no[3]];
    session.record = no && { number: Number(no[1]), rule: no[2] };
    element('file').textContent = `${capture.name}, ${size_text(capture.file.size)}, judged in ${seconds_text(said.ms)}`;
    element('verdict').classList.toggle('bad', Boolean(no));
    element('verdict').textContent = no ? `No at record ${grouped(no[1])}: ${no[2]}` : 'Yes: a deck can have given these replies';
    element('sentence').textContent = reason ? `${reason.says} At fault: ${reason.fault}` : 'No rule is broken.';
    element('totals').textContent = text_of(said.out.slice(-LINE)).trimEnd().split('\n').pop();
    element('asked').replaceChildren(command_row(command_of(words)));
    element('made').replaceChildren();
    if (capture.note) element('made').append(make('pre', {}, capture.note));
    const save_it = () => save(capture.name, capture.file, 'text/csv');
    if (capture.made_by) element('made').append(command_row(capture.made_by, make_button('Save the capture', save_it)));
    element('next').replaceChildren();
    element('tries').hidden = true;
    element('answer').hidden = false;
    document.body.classList.add('answered');
    document.title = `${no ? 'No' : 'Yes'}: ${capture.name}`;
}

// The time of the first break, once it is known.
function show_time(number, clock) {
    const { record } = session;
    if (record && record.number === number) element('verdict').textContent = `No at record ${grouped(number)}, ${clock}: ${record.rule}`;
}

// What is asked of an answer without a click, one behind the other.
async function follow_up(status) {
    wait_panel();
    const info = text_of((await answer_to('info')).out);
    for (const line of info.match(/^look at: .*$/gm) || []) show_advice(line);
    begin_strip(info);
    if (status === 1) await show_why();
    await show_tab();
    await show_session();
    if (status === 1) await show_tries();
}

async function show_why() {
    const why = await answer_to('why'), at = /^record (\d+) at (\d+):/m.exec(text_of(why.out.slice(0, 10 * LINE)));
    if (at) show_time(Number(at[1]), clock_of(Number(at[2])));
    for (const line of text_of(why.err).match(/^next: .*$/gm) || []) show_advice(line);
}

async function show_tries() {
    const said = await answer_to('try');
    for (const line of text_of(said.err).match(/^.+$/gm) || []) show_advice(line);
    element('try-command').replaceChildren(command_row(command_of(words_of('try', session.terms, session.capture))));
    element('try-text').textContent = text_of(said.out);
    element('tries').hidden = false;
}

// A line that the program says, with a button for each thing that it says to ask. What was said already is not said again.
function show_advice(line) {
    const said = line.replace(/^next: /, ''), list = element('next'), { capture } = session;
    if ([...list.children].some(it => it.dataset.said === said)) return;
    const item = make('li', { 'data-said': said });
    item.append(make('span', {}, line));
    if (line.startsWith('look at: the wires are swapped')) item.append(make_button('Swap the wires and ask', () => swap_and_ask(capture)));
    for (const changed of advised(line)) item.append(make_button(`Ask with ${change_text(changed)}`, () => change_terms(changed)));
    list.append(item);
}

async function swap_and_ask(capture) {
    try {
        if (capture.swap) capture.swap();
        else judge(await swapped(capture), read_terms());
    } catch (fault) {
        tell_fault(fault, capture.name);
    }
}

// The terms that a line says to ask with, beside those that stand. Of the sheets in the program the page has one.
function advised(line) {
    if (line.endsWith(' without --deck')) return [{ sheet: null }];
    const found = /(?:(?:yes|keeps the rules) with|it is valid at|; ask with) (--[^(;]*)/.exec(line);
    if (!found || found[1].includes('beside your own')) return [];
    return found[1].trim().split(/, or with(?:out drop frame)? | and |, (?=--)/).filter(part => !/--deck(?! 9pin(?! --deck))/.test(part)).map(part => {
        const rate = /--rate (\S+)/.exec(part);
        return {
            ...(rate && { rate: rate[1] }),
            ...(part.includes('--hands') && { hands: true }),
            ...(part.includes('--sync') && { sync: true }),
            ...(part.includes('--deck') && { sheet: 'shipped' }),
        };
    });
}

const change_text = ({ rate, hands, sync, sheet }) =>
    [rate && `--rate ${rate}`, sheet && '--deck 9pin', sheet === null && 'no sheet', hands && '--hands', sync && '--sync'].filter(it => it).join(' ');
