/** A colour of OKLCH (lightness, chroma, hue in degrees), whose lightness is as people see it, as red, green and blue. */
function oklch(light, chroma, hue) {
  const a = chroma * Math.cos(hue * Math.PI / 180), b = chroma * Math.sin(hue * Math.PI / 180);
  const l = (light + 0.3963377774 * a + 0.2158037573 * b) ** 3;
  const m = (light - 0.1055613458 * a - 0.0638541728 * b) ** 3;
  const s = (light - 0.0894841775 * a - 1.2914855480 * b) ** 3;
  const linear = [4.0767416621 * l - 3.3077115913 * m + 0.2309699292 * s, -1.2684380046 * l + 2.6097574011 * m - 0.3413193965 * s,
    -0.0041960863 * l - 0.7034186147 * m + 1.7076147010 * s];
  return linear.map(part => {
    const it = Math.min(1, Math.max(0, part));
    return Math.round(255 * (it <= 0.0031308 ? 12.92 * it : 1.055 * it ** (1 / 2.4) - 0.055));
  });
}

/** A pixel of an image, as a number of 32 bits. */
function pixel([red, green, blue], opacity = 1) {
  return (Math.round(255 * opacity) << 24 | blue << 16 | green << 8 | red) >>> 0;
}

/** The red, green and blue of a colour like #1864ab. */
function parsed(colour) {
  return [1, 3, 5].map(at => parseInt(colour.slice(at, at + 2), 16));
}

/** A colour for style sheets. */
function css(colour) {
  return "rgb(" + colour.join(" ") + ")";
}

/** All colours of a theme; those with names stand in the style sheet. */
class Palette {
  constructor(dark) {
    this.dark = dark;
    const style = getComputedStyle(document.documentElement);
    for (const name of ["paper", "ink", "soft", "panel", "obstacle", "narrow", "shut", "open", "swept", "forward", "backward", "turn",
      "before", "start", "goal", "cross", "raised", "rim", "accent"]) {
      this[name] = style.getPropertyValue("--" + name).trim();
    }
    /* what comes late stands out from the paper */
    this.scale = Array.from({length: 256}, (_, at) => this.on(at / 255));
  }

  /** The colour of a part, from 0 to 1, of the perceptual scale. */
  on(part) {
    return this.dark ? oklch(0.44 + 0.47 * part, 0.085 + 0.03 * part, 285 - 185 * part) :
      oklch(0.95 - 0.52 * part, 0.075 + 0.045 * part, 105 + 175 * part);
  }

  /** The colour of a worker. */
  worker(seat) {
    return oklch(this.dark ? 0.74 : 0.66, 0.14, 25 + seat * 137.508);
  }

  /** The colour of a pass among so many. */
  pass(number, count) {
    return this.on(count === 1 ? 0.5 : 0.12 + 0.8 * number / (count - 1));
  }

  /** The colour of a cell of this cost; shades go by the logarithm, since a step costs cost + 1 times as much. */
  cost(cost, obsthresh, inscribed) {
    if (cost >= obsthresh) return parsed(this.obstacle);
    if (cost >= inscribed) return parsed(this.narrow);
    const [red, green, blue] = parsed(this.paper), part = 1 - (this.dark ? 0.075 : 0.047) * Math.log2(1 + cost);
    return [red, green, blue].map(it => Math.round(it * part));
  }
}
