/** The processor's time that an act takes, in milliseconds: the clock says little where other programs run beside it. */
export function processorTime(act) {
  const before = process.cpuUsage();
  act();
  const { user, system } = process.cpuUsage(before);
  return (user + system) / 1000;
}
