
// Pictures that the module draws.
import { make } from "./dom.js";

/** Shows a picture in SVG, as an image that runs nothing. */
export function pictureOf(bytes, alt) {
    const image = make("img", { class: "picture", alt });
    image.src = URL.createObjectURL(new Blob([bytes], { type: "image/svg+xml" }));
    image.onload = () => URL.revokeObjectURL(image.src);
    return image;
}
