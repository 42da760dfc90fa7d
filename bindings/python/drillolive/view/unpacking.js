"use strict";
/* Unpacks the arrays of the scene. */
{
  const TYPES = { u8: Uint8Array, u16: Uint16Array, u32: Uint32Array, f32: Float32Array };

  /** Returns the typed array of a packed one. */
  const unpacked = ({ type, data }) => {
    const text = atob(data);
    const bytes = new Uint8Array(text.length);
    for (let place = 0; place < text.length; place++) bytes[place] = text.charCodeAt(place);
    return new TYPES[type](bytes.buffer);
  };

  Object.assign(drillolive, { unpacked });
}
