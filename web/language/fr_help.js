// Help, in French.

export const FR_HELP = {
  title: 'Aide',
  // What somebody wants to know, and the answer.
  lines: [
    ['Quelque chose a été supprimé ou remplacé par erreur',
      '« Avant », dans le menu d’un dossier ou d’un document, le montre comme une nuit '
      + 'précédente, et le remet.'],
    ['Quelqu’un doit avoir accès',
      'Appuyez sur « Accès », tapez un nom, choisissez ce que la personne peut faire, et '
      + 'lisez qui y gagne et qui y perd avant d’appuyer sur « Partager ».'],
    ['Quelque chose est gris, ou refusé',
      'La page dit ce qui vous manque, et à qui demander ; « Pourquoi » nomme la ligne '
      + 'qui en décide.'],
    ['Au clavier',
      'La liste est un arrêt de la touche Tab. Les touches fléchées y vont de ligne en '
      + 'ligne, la barre d’espace coche, F2 renomme, Suppr supprime, et / mène au champ '
      + 'pour un nom.'],
    ['Tout le reste',
      'Demandez à qui gère le dossier, ou à votre administrateur.'],
  ],
};
