// Begins the page. It is small, so the open folder is asked for while the rest is still read.

import { sendFirst } from './net/sent_first.js';

const replies = sendFirst(location.hash);
const { begin } = await import('./app.js');
begin(replies);
