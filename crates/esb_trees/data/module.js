import a, { b as c } from "./other.js"

export const f = async ({ x = 1, ...rest }, [y]) => `${await x}${c(y, ...rest)}`
export default class extends a {
  static *[f.name]() { yield* super.items ?? [] }
}
