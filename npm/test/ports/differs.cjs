// A port in CommonJS, with no Server.

module.exports = { TextOperation: class {}, Client: class {} };
