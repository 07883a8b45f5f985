// The program's lines in words. docs/MANUAL.md has all of them.

import { moment, number } from "./parts.js";

const REFUSED = {
  1: "a votação ainda não foi aberta: falta ABRE",
  2: "a votação já foi aberta",
  3: "a urna está lacrada: ninguém mais vota",
  4: "este título não está na lista de eleitores desta seção",
  5: "este eleitor já votou, e não vota outra vez",
  6: "há alguém identificado ou votando",
  7: "ninguém está identificado: falta TITULO",
  8: "ninguém está votando: nada a suspender",
  9: "o encerramento é anterior à abertura",
};

const FLASH = { INTERNA: "interna", EXTERNA: "externa" };

const FAULTS = [
  [/^ERRO LINHA \d+$/, () => "número errado: um título tem 12 algarismos, um momento 14, sem espaços"],
  [/^ERRO OUTRA CARGA (\w+)$/, (f) => `a memória ${FLASH[f]} não tem a carga desta eleição`],
  [/^ERRO SEM IMAGEM$/, () => "nenhuma das duas guarda uma votação"],
  [/^ERRO SEM IMAGEM (\w+)$/, (f) => `a memória ${FLASH[f]}, de que a outra ia ser carregada, não guarda nenhuma votação`],
  [/^ERRO EM USO (\w+)$/, (f) => `a memória ${FLASH[f]} está em uso, e não é apagada`],
  [/^ERRO TABELAS/, () => "o arquivo não tem as tabelas de uma eleição"],
  [/^ERRO ROL/, () => "a lista de eleitores não tem a forma: um título de 12 algarismos em cada linha, em ordem crescente"],
  [/^ERRO CARGO$/, () => "as tabelas não têm um cargo proporcional com esse código"],
  [/^ERRO SEM VAGAS$/, () => "nenhuma vaga é dada nesse cargo sobre estes boletins: não há certificado"],
  [/^ERRO CERTIFICADO LINHA (\d+)$/, (k) => `a linha ${k} do arquivo é a primeira que não pode estar em um certificado deste cargo, ou falta, ou não tem a sua quebra de linha`],
  [/^ERRO TAMANHO CERTIFICADO$/, () => "é grande demais para um certificado"],
  [/^ERRO SECAO$/, () => "as tabelas não têm esta seção, ou ela não tem tantos eleitores como a lista de eleitores"],
];

const LINES = [
  [/^URNA PRONTA 0$/, () => "pronta: ninguém votou, e falta abrir"],
  [/^URNA ABERTA (\d+)$/, (n) => `aberta: ${voted(n)}`],
  [/^URNA LACRADA (\d+)$/, (n) => `lacrada: ${voted(n)}`],
  [/^CARGA (\d+) (\d+) (\d+)$/, (z, s, n) => `as duas memórias estão carregadas para a seção ${s} da zona ${z}, de ${number(n)} eleitores`],
  [/^REPOSTA (\w+) (\d+) (\d+) (\d+)$/, (f, z, s, n) => `a memória ${FLASH[f]} guarda outra vez a votação da seção ${s} da zona ${z}: ${voted(n)}`],
  [/^ABERTA (\d+)$/, (m) => `a votação está aberta desde ${moment(m)}`],
  [/^ENCERRADA (\d+) (\d+)$/, (m, n) => `a votação está lacrada desde ${moment(m)}: ${voted(n)}`],
  [/^ELEITOR (\d+)$/, (t) => `o título ${t} está identificado: falta LIBERA`],
  [/^LIBERADO$/, () => "a urna está liberada: o eleitor vota"],
  [/^CANCELADO$/, () => "a identificação foi desfeita"],
  [/^SUSPENSO$/, () => "a vez foi suspensa: nada foi contado, e o eleitor pode voltar"],
  [/^FIM$/, () => "este voto está nas duas memórias"],
  [/^RECUSA (\d)$/, (k) => `recusado: ${REFUSED[k]}`],
  [/^ACEITO (\d+) (\d+)$/, (z, s) => `inteiro, e da seção ${s} da zona ${z}`],
  [/^REPETIDO (\d+) (\d+)$/, (z, s) => `o mesmo boletim outra vez, da seção ${s} da zona ${z}: não conta de novo`],
  [/^CONFLITO (\d+) (\d+)$/, (z, s) => `outro boletim da seção ${s} da zona ${z}, que já tem um: não conta`],
  [/^PARTE \w+ (\d+)$/, (i) => `a parte ${i} é a primeira que não está como foi escrita`],
  [/^CAMPO (\d+)$/, (k) => `o campo ${k} é o primeiro que não pode estar ali`],
  [/^SOMA (\d+) (\d+) (\d+)$/, (k, n, m) => `no campo ${k} está a soma ${m}, e o que é somado dá ${n}`],
  [/^ESTRANHO$/, () => "é um boletim, mas não desta eleição"],
  [/^CONFERE$/, () => "o registro e o boletim dizem o mesmo"],
  [/^DIFERE /, () => "o registro e o boletim não dizem o mesmo"],
  [/^CERTIFICADO VALIDO \d+$/, () => "cada linha é a que as regras dão, sobre os boletins aceitos"],
  [/^RECUSADO QUOCIENTE$/, () => "o quociente não é o destes boletins"],
  [/^RECUSADO PRIMEIRA (\d+)$/, (i) => `a linha ${i} da primeira fase não é a que as regras dão, ou falta, ou sobra`],
  [/^RECUSADO RODADA (\d+)$/, (k) => `a sobra ${k} é a primeira que não é a que as regras dão`],
  [/^RECUSADO FIM$/, () => "as vagas não são todas, ou uma fica vazia enquanto alguém ainda concorre"],
  ...FAULTS,
];

function voted(n) {
  return n === "0" ? "ninguém votou ainda" : n === "1" ? "1 votou" : `${number(n)} votaram`;
}

// A line in words; nothing if it has none.
export function inWords(line) {
  for (const [form, say] of LINES) {
    const found = form.exec(line);
    if (found) {
      return say(...found.slice(1));
    }
  }
  return "";
}

// If a command shows no line, its status is all there is.
const NUMBERS = { 1: "faltou memória ao computador", 20: "um arquivo não pôde ser lido ou gravado", 21: "a memória interna falhou",
  22: "a memória externa falhou", 23: "a tela falhou", "-9": "o programa foi parado" };

export const ofNumber = (status) => NUMBERS[status] || `o programa terminou com o número ${status}`;
