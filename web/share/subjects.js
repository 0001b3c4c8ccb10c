// Whom a change is about: {who, isGroup, name, isLeaving, level}, or several at once: {all, level}.

export const subjectsOf = (subject) => (subject === null ? [] : subject.all ?? [subject]);

export const isMeantBy = ({ who, isGroup }) => ({ user, groups }) =>
  (isGroup ? groups.includes(who) : user === who);

export const isMeant = (subject) => (caller) =>
  subjectsOf(subject).some((one) => isMeantBy(one)(caller));
