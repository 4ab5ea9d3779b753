// Colours. Trees name them as variables; the page sets the variables, and a saved picture has the values in their place.

import { Tree } from "./tree.mjs";

const PALETTES = {
  light: {
    background: "#ffffff",
    soft: "#f5f6f8",
    line: "#d8dce2",
    ink: "#1c2128",
    dim: "#5f6875",
    faint: "#646b76",
    pick: "#fff3c9",
    "pick-line": "#c99700",
    bad: "#c4162a",
    "bad-soft": "#fdeaec",
    good: "#15763a",
    "good-soft": "#e6f5eb",
    badge: "#eef1f5",
    accent: "#1d6fd1",
    clients: ["#1c6ac8", "#bd411c", "#177a41", "#8e3fc0", "#876500", "#c32c74", "#0c767f", "#7a5c3e"],
    lightness: 42,
  },
  dark: {
    background: "#14171c",
    soft: "#1c2027",
    line: "#343b46",
    ink: "#e4e8ee",
    dim: "#9ba5b3",
    faint: "#939dab",
    pick: "#3a3213",
    "pick-line": "#d9ae2b",
    bad: "#ff7b86",
    "bad-soft": "#3d1a1f",
    good: "#62d08c",
    "good-soft": "#15301f",
    badge: "#262c35",
    accent: "#6bb0ff",
    clients: ["#6bb0ff", "#ff8f66", "#5fd38d", "#c792ff", "#e5c04b", "#ff7db8", "#4fd0d8", "#c9a27e"],
    lightness: 70,
  },
};

/* Hexadecimal, since not every reader of SVG knows hsl. */
function fromHue(hue, lightness) {
  const reach = (0.62 * Math.min(lightness, 100 - lightness)) / 100;
  const channel = (n) => {
    const k = (n + hue / 30) % 12;
    const value = lightness / 100 - reach * Math.max(-1, Math.min(k - 3, 9 - k, 1));
    return Math.round(255 * value).toString(16).padStart(2, "0");
  };
  return `#${channel(0)}${channel(8)}${channel(4)}`;
}

/* The relative luminance of a colour, as WCAG 2 defines it. */
function luminance(colour) {
  const [red, green, blue] = [1, 3, 5].map((at) => {
    const part = parseInt(colour.slice(at, at + 2), 16) / 255;
    return part <= 0.04045 ? part / 12.92 : ((part + 0.055) / 1.055) ** 2.4;
  });
  return 0.2126 * red + 0.7152 * green + 0.0722 * blue;
}

/** The contrast of two colours, from 1 to 21. */
export function contrast(a, b) {
  const [dark, light] = [luminance(a), luminance(b)].sort((x, y) => x - y);
  return (light + 0.05) / (dark + 0.05);
}

/** The contrast that text needs. */
export const LEGIBLE = 4.5;

/** The variables of a theme that texts in clients' colours stand on. */
export const GROUNDS = ["background", "soft", "pick", "bad-soft"];

/* The colour of a hue, so dark in the light theme, and so light in the dark one, that it is read on all grounds. */
function ofHue(hue, palette) {
  const step = palette.lightness < 50 ? -1 : 1;
  for (let { lightness } = palette; ; lightness += step) {
    const colour = fromHue(hue, lightness);
    if (GROUNDS.every((ground) => contrast(colour, palette[ground]) >= LEGIBLE)) return colour;
  }
}

/* The values of all variables of a theme, those of 64 clients too. */
export function variablesOf(theme) {
  const { clients, lightness: _, ...colours } = PALETTES[theme];
  const variables = Object.fromEntries(Object.entries(colours).map(([name, value]) => [`--${name}`, value]));
  for (let c = 0; c < 64; c++) variables[`--client-${c}`] = clients[c] || ofHue((c * 137.508) % 360, PALETTES[theme]);
  return variables;
}

/* The colour of who made something: a client's number, or another for what is no client's. */
export const colourOf = (maker) => (Number.isInteger(maker) && maker >= 0 ? `var(--client-${maker})` : "var(--dim)");

/** A tree in which the colours that its attributes name have their values. */
export function withValues(shown, theme) {
  const variables = variablesOf(theme);
  const valued = (value) => (typeof value === "string" ? value.replace(/^var\((--[a-z0-9-]+)\)$/, (_, name) => variables[name]) : value);
  const inside = (child) => {
    if (typeof child === "string") return child;
    const attributes = Object.fromEntries(Object.entries(child.attributes).map(([name, value]) => [name, valued(value)]));
    return new Tree(child.name, attributes, child.children.map(inside));
  };
  return inside(shown);
}
