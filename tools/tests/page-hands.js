// What the hands of a reader come to: the slider, the number, the choice of a lock's sections, the address, a lecture.
const box = thing => by(thing).getBoundingClientRect(), slide = (id, to) => { by(id).value = to; by(id).dispatchEvent(new Event('input')); };
const pressOn = id => by(id).click(), hands = {};
slide('slide', 4); hands.slider = step; slide('stamp', 2); hands.stamp = step;
by('of').value = '0'; by('of').dispatchEvent(new Event('change'));
pressOn('first'); hands.sections = []; while (!by('sectionon').disabled) { pressOn('sectionon'); hands.sections.push(step); }
by('of').value = 'passed'; by('of').dispatchEvent(new Event('change')); pressOn('first'); pressOn('sectionon'); hands.passed = step;
location.hash = '#5'; fromAddress(); hands.address = step;
hands.screen = [innerWidth, innerHeight, document.querySelector('main').getBoundingClientRect().bottom, box('slide').bottom];
hands.seen = ['workers', 'locks', 'says'].map(id => box(id).bottom <= innerHeight);
const size = () => parseFloat(getComputedStyle(by('says')).fontSize), small = size();
document.dispatchEvent(new KeyboardEvent('keydown', { key: 'l' }));
hands.lecture = [size() / small, getComputedStyle(by('bytebox')).display, box('says').left > box('map').right - 1, address()];
hands.lectureSeen = box('says').bottom <= innerHeight && box('map').bottom <= innerHeight;
pressOn('lecture'); hands.after = [size() === small, address()];
const made = document.createElement('pre'); made.id = 'seen'; made.textContent = JSON.stringify(hands); document.body.append(made);
