// What the page has at each block, and what keys do: written into the element `seen`.
const seen = [], key = (name, shift) => document.dispatchEvent(new KeyboardEvent('keydown', { key: name, shiftKey: !!shift }));
const look = () => seen.push({ step, says: by('says').innerText, workers: workers.map(box => box.innerText),
	line: lockRows[0].lastChild.innerText, home: lockRows[0].children[1].innerText, ready: by('ready').innerText,
	ended: by('ended').innerText, registers: by('registers').innerText, bytes: by('bytes').innerText });
go(0); look();
for (let i = 0; i < 6; i++) { key('ArrowRight'); look(); }
key('ArrowLeft', true); const back = step; key('ArrowLeft', true); const backTwice = step;
key('End'); const end = step; key('Home'); key('ArrowRight', true);
const made = document.createElement('pre'); made.id = 'seen';
made.textContent = JSON.stringify({ seen, back, backTwice, end, section: step });
document.body.append(made);
