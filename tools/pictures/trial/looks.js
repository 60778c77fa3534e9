// What is wrong with how the page looks: words without enough contrast, a page that is too wide, a control without a name.
(() => {
  const found = [];
  const numbers = (colour) => (colour.match(/[\d.]+/g) ?? []).map(Number);
  const light = ([red, green, blue]) => [red, green, blue].map((it) => it / 255)
    .map((it) => (it <= 0.03928 ? it / 12.92 : ((it + 0.055) / 1.055) ** 2.4)).reduce((sum, it, at) => sum + it * [0.2126, 0.7152, 0.0722][at], 0);
  const ground = (element) => {
    for (let it = element; it; it = it.parentElement) {
      const colour = numbers(getComputedStyle(it).backgroundColor);
      if (colour.length === 3 || colour[3] === 1) {
        return colour;
      }
    }
    return [255, 255, 255];
  };
  for (const it of document.querySelectorAll("body *:not(svg *):not(script):not(noscript)")) {
    const isSaid = [...it.childNodes].some((node) => node.nodeType === 3 && node.textContent.trim());
    if (isSaid && it.offsetParent && !it.closest("[aria-disabled=true], .idle")) {
      const [one, other] = [light(numbers(getComputedStyle(it).color)), light(ground(it))];
      const contrast = (Math.max(one, other) + 0.05) / (Math.min(one, other) + 0.05);
      if (contrast < 4.5) {
        found.push(`${it.tagName} ${it.className} has contrast ${contrast.toFixed(1)}: ${it.textContent.slice(0, 30)}`);
      }
    }
  }
  if (document.documentElement.scrollWidth > innerWidth) {
    found.push(`the page is ${document.documentElement.scrollWidth} wide, and the window ${innerWidth}`);
  }
  return [...new Set(found)].slice(0, 5);
})()
