// The picture of the stacks as a file, with the colours that it has now.
import {saveFile} from '../editor/keep.js';

const PAINT = ['fill', 'paint-order', 'stroke', 'stroke-width', 'stroke-dasharray', 'font-family', 'font-size', 'font-weight', 'opacity', 'color'];

// A copy of a picture in which each part has its colours and letters by itself, so that it needs no style sheet.
function alone(picture) {
  const copy = picture.cloneNode(true), from = [picture, ...picture.querySelectorAll('*')];
  [copy, ...copy.querySelectorAll('*')].forEach((node, k) => {
    const seen = getComputedStyle(from[k]);
    for (const name of PAINT) node.style.setProperty(name, seen.getPropertyValue(name));
    node.removeAttribute('class');
  });
  copy.setAttribute('xmlns', 'http://www.w3.org/2000/svg');
  copy.style.setProperty('background', getComputedStyle(document.body).backgroundColor);
  return copy;
}

export function savePicture(box, name) {
  const picture = box.querySelector('svg');
  if (!picture) throw new Error('No stack is shown, so there is no picture.');
  saveFile(new XMLSerializer().serializeToString(alone(picture)), `${name}.svg`, 'image/svg+xml');
}
